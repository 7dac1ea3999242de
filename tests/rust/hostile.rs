//! False bytes, fed to the readers, and what they come to, counted by name. `hostile/expected/all.py` works it out after the published formats.

mod cuts;
mod data;
mod parts;
mod reading;
mod replaced;
mod scram;
mod server;
mod sum;
mod tally;
mod ways;

#[test]
fn false_bytes_come_to_what_was_worked_out() {
    let mut lines = String::new();
    cuts::run(include_str!("hostile/data/stream.hex"), &mut lines);
    replaced::run(include_str!("hostile/data/session.hex"), &mut lines);
    scram::run(include_str!("hostile/data/keys.hex"), &mut lines);
    let wanted = include_str!("hostile/expected.txt");
    for (line, wanted) in lines.lines().zip(wanted.lines()) {
        assert_eq!(line, wanted);
    }
    assert_eq!(lines.len(), wanted.len());
}
