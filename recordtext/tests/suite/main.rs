//! Records as text, the sample texts, and the command itself.

mod command;
mod reasons;
mod sample_texts;
// The peer's builders and generator serve here too, not all of them.
#[allow(dead_code)]
#[path = "../../../peer/tests/suite/support.rs"]
mod support;
mod text_form;
