//! Examples of the specification, its open points, and comparisons of the
//! book with the register.

mod book_against_register;
mod book_and_bytes;
mod calls_and_state;
mod checked_money;
mod damage;
mod money_by_formula;
mod offset_calls;
mod pages;
mod questions_asked;
mod reading;
mod sample_days;
mod statements;
mod support;
mod table_of_numbers;
mod worked_figures;
