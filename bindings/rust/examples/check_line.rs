//! A calculation line, checked: an allowance of 0.30 euro a kilometre, times a distance, plus a lump sum in euro; and the same with the sum in hours.
//! `cargo run --example check_line`
use shupkelen::{step, Base, Factor, NameTable, Refusal, Solver, Type};

/// The dimension of these base dimensions, each with a power.
fn dimension(powers: &[(&str, i32)]) -> Type {
    Type::Dimension(powers.iter().map(|&(name, power)| Factor { base: Base::Dimension, name: name.into(), power: power.into() }).collect())
}

fn main() -> Result<(), Refusal> {
    let (mut names, mut solver) = (NameTable::new(), Solver::new());
    // the types that the steps name by their places, one behind another
    let mut types = Vec::new();
    let mut places = Vec::new();
    for t in [dimension(&[("euro", 1), ("kilometre", -1)]), dimension(&[("kilometre", 1)]), dimension(&[("euro", 1)]), dimension(&[("hour", 1)])] {
        places.push((types.len() / 4) as u32);
        types.extend(t.records(&mut names)?);
    }
    // one name a step, lent for the call
    let lent = (0..5).map(|i| Ok(names.enter(format!("step {i}").as_bytes())?.number)).collect::<Result<Vec<u32>, Refusal>>()?;
    for sum in [places[2], places[3]] {
        let steps = [
            [step::CONSTANT, places[0], 0, 0],
            [step::CONSTANT, places[1], 0, 0],
            [step::MULTIPLY, 0, 0, 0],
            [step::CONSTANT, sum, 0, 0],
            [step::ADD, 0, 0, 0],
        ];
        match solver.check_line(&names, &steps.concat(), &types, &[], &lent) {
            Ok(records) => println!("the line comes to {}", names.type_from(&records)?),
            Err(refusal) => println!("the line is refused: {refusal}"),
        }
    }
    Ok(())
}
