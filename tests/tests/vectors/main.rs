//! The vectors that lie beside the repository, where they do: requests to the entries and to the
//! program with their answers, each for a range of levels. Level 0 is document 01, level k has the
//! changes 1 to k of document 02. Every line of the landed level is played, whatever its entry.

mod answers;
mod every_line;
mod level;
mod lines;
mod planted;
mod program;
mod reading;
mod replay;
mod session;
mod written;
