//! Local market power mitigation, worked out word by word from the definitions.

pub mod classroom;
pub mod compare;
pub mod contract;
pub mod costs;
pub mod coverage;
pub mod curve;
pub mod designation;
pub mod gas;
pub mod generate;
pub mod hour;
pub mod numbers;
pub mod passes;
pub mod print;
pub mod rounding;
pub mod text;
pub mod together;
pub mod verdict;

/// All that the program `mitigate` prints for a text.
pub fn run(text: &[u8]) -> Vec<u8> {
    print::print(&print::answer(text))
}
