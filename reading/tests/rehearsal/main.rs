//! Tests of the second reading, all in one program.

mod buffers;
mod builder;
mod commands;
mod desks;
mod loading;
mod program;
mod random;
mod registers;
mod situations;
mod stock;
mod together;
