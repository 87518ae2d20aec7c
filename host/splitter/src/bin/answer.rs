//! Answers a list of calls as the program under test must: for each line of its input it prints the
//! answer of the module as requested.

use splitter::answer::answer_lines;
use splitter::requested::model::Model;

fn main() -> std::io::Result<()> {
    let mut model = Model::default();
    answer_lines(|call| model.answer(call))
}
