//! Sheets of document 01 through the library: their lifts, their deadlocks, a replay and a refusal; then a sheet with
//! lengths, what the panel takes, and a training sheet.

use topjeska::{
    check, deadlock, ffi, plan, plan_panel, replay, Generator, Method, ReplayError, Sheet, Verdict,
};

fn main() -> Result<(), ReplayError> {
    let sheets: [(&str, &[u16], &[u16]); 4] = [
        ("S2", &[2, 0], &[0, 1]),
        ("S4", &[2, 0, 4, 0], &[4, 0, 2, 0]),
        ("S5", &[2, 3, 0, 5, 0], &[5, 0, 0, 3, 2]),
        ("grows", &[2, 0, 0, 0], &[2, 4, 0, 3]),
    ];
    for (name, now, goal) in sheets {
        show(name, now, goal)?;
    }
    let (_, now, goal) = sheets[0];
    match replay(now, goal, &[])? {
        Verdict::Elsewhere { slab } => println!("S2 without lifts: slab {slab} differs"),
        other => println!("S2 without lifts: {other:?}"),
    }
    match plan(Method::Us, &[2, 1, 5], &[0, 0, 0]) {
        Err(refusal) => println!("2 1 5: {refusal}"),
        Ok(made) => println!("2 1 5: {made:?}"),
    }
    let (_, now, goal) = sheets[1];
    show_lengths(now, goal)?;
    show_panel();
    let mut generator = Generator::new(7);
    let (mut now, mut goal) = ([0; 5], [0; 5]);
    for (which, out) in [("now", &mut now), ("goal", &mut goal)] {
        generator.draw(5, out)?;
        let entries = out.map(|entry| entry.to_string()).join(" ");
        println!("seed 7 {which} {entries}");
    }
    show("seed 7", &now, &goal)
}

/// Prints what the library says of a sheet.
fn show(name: &str, now: &[u16], goal: &[u16]) -> Result<(), ReplayError> {
    check(now, goal)?;
    let made = plan(Method::Gn1, now, goal)?;
    println!("{name} lifts{}", listed(&made.lifts, "->"));
    println!("{name} misplaced {}", made.misplaced);
    println!("{name} deadlock{}", listed(&deadlock(now, goal)?, " "));
    match replay(now, goal, &made.lifts)? {
        Verdict::Arrives => println!("{name} arrives"),
        other => println!("{name} does not arrive: {other:?}"),
    }
    Ok(())
}

/// Prints what the library says of S4 with lengths: its list, a lift onto a shorter slab, and the refusal where slab 4
/// is too short.
fn show_lengths(now: &[u16], goal: &[u16]) -> Result<(), ReplayError> {
    let sheet = Sheet::new(now, goal).lengths(&[250, 300, 200, 300]);
    let mut space = [[0; 2]; ffi::plan_space(4) / 2];
    let made = sheet.plan(Method::Gn1, &mut space)?;
    println!("S4 with lengths lifts{}", listed(made.lifts, "->"));
    match sheet.replay(&[[1, 3]])? {
        Verdict::TooLong { lift } => println!("S4 with lengths, 1->3: lift {lift} is too long"),
        other => println!("S4 with lengths, 1->3: {other:?}"),
    }
    match sheet.lengths(&[250, 300, 200, 200]).check() {
        Err(refusal) => println!("S4 with a shorter slab 4: {refusal}"),
        Ok(()) => println!("S4 with a shorter slab 4: accepted"),
    }
    Ok(())
}

/// Prints what the panel's entry says of a pile that shall stand the other way up: of the most slabs that it takes, and
/// of one more.
fn show_panel() {
    for n in [ffi::MOST_PANEL as u16, ffi::MOST_PANEL as u16 + 1] {
        let now: Vec<u16> = (0..n).collect();
        let goal: Vec<u16> = (2..=n).chain([0]).collect();
        match plan_panel(Method::Gn1, &now, &goal) {
            Ok(made) => println!("{n} slabs by the panel: {} lifts", made.lifts.len()),
            Err(refusal) => println!("{n} slabs by the panel: {refusal}"),
        }
    }
}

/// Groups of so many numbers, each with a space before it.
fn listed<const OF: usize>(groups: &[[u16; OF]], between: &str) -> String {
    if groups.is_empty() {
        return " none".into();
    }
    let text = |group: &[u16; OF]| format!(" {}", group.map(|x| x.to_string()).join(between));
    groups.iter().map(text).collect::<Vec<_>>().join(",")
}
