//! Every safe function, with an answer and with a refusal; and trees beside records and text, on the sets of the stored cases.
mod common;
use common::stored;
use shupkelen::{
    kind, record, records_of, solve_all, step, Added, Base, Constraint, ConstraintSet, Entry, Factor, NameTable, Power, Refusal, Solver, Type, LIST_WORDS,
};

fn variable(name: &str) -> Type {
    Type::Variable(name.into())
}

/// A table, and the set of these lines over it.
fn sheet(text: &str) -> (NameTable, Vec<u32>) {
    let mut names = NameTable::new();
    let records = Solver::new().read_text(&mut names, text.as_bytes()).unwrap().records;
    (names, records)
}

fn type_of(names: &mut NameTable, line: &str) -> Vec<u32> {
    let set = Solver::new().read_text(names, format!("{line}: DType").as_bytes()).unwrap();
    set.records[4..].to_vec()
}

/// The archive that is linked is of this crate's version.
#[test]
fn version() {
    let numbers: Vec<u32> = env!("CARGO_PKG_VERSION").split('.').map(|n| n.parse().unwrap()).collect();
    assert_eq!(shupkelen::raw::version(), numbers[0] * 10_000 + numbers[1] * 100 + numbers[2]);
}

#[test]
fn names() {
    let mut names = NameTable::new();
    assert_eq!(names.enter(b"").unwrap_err(), Refusal::NameLength);
    for i in 0..256 {
        assert!(names.enter(format!("name{i}").as_bytes()).unwrap().new);
    }
    assert_eq!(names.enter(b"one more"), Err(Refusal::NoRoom));
    assert!(!names.enter(b"name7").unwrap().new);
    let again = NameTable::from_parts(names.pool().to_vec(), names.table().to_vec()).unwrap();
    assert_eq!(again, names);
    assert_eq!(NameTable::from_parts(names.pool().to_vec(), vec![0; 256]).unwrap_err(), Refusal::ShortBuffer);
    assert_eq!(NameTable::from_parts(names.pool().to_vec(), vec![7; 257]).unwrap_err(), Refusal::Malformed);
    assert!(format!("{names:?}").len() < 100 && format!("{:?}", Solver::new()).len() < 100 && format!("{:?}", ConstraintSet::new()).len() < 100);
}

#[test]
fn lists() {
    let (mut names, set) = sheet("?x ~ [#km]\n");
    let t = type_of(&mut names, "Fn[(?x, !p) -> Bool]");
    assert_eq!((names.check_set(&set), names.check_set(&t)), (Ok(()), Err(Refusal::Malformed)));
    assert_eq!((names.check_type(&t), names.check_type(&vec![0; LIST_WORDS + 4])), (Ok(()), Err(Refusal::TooLarge)));
    let bindings = Solver::new().solve(&names, &set).unwrap();
    assert_eq!((names.check_bindings(bindings.binding_records()), names.check_bindings(&set)), (Ok(()), Err(Refusal::Malformed)));
    let p = names.enter(b"p").unwrap().number;
    assert_eq!((names.contains(&t, p, true), names.contains(&t, p, false), names.contains(&t, 200, true)), (Ok(true), Ok(false), Err(Refusal::Malformed)));
    let mixed = type_of(&mut names, "Fn[(?x) -> !x]");
    assert_eq!((names.closed(&t), names.closed(&mixed)), (Ok(false), Err(Refusal::Mixed)));
    let mut solver = Solver::new();
    let x = names.enter(b"x").unwrap().number;
    assert_eq!((solver.variables(&names, &t, true), solver.variables(&names, &mixed, false)), (Ok(vec![p, x]), Err(Refusal::Mixed)));
    assert_eq!((names.ceiling(&set), names.ceiling(&t)), (Ok(1 + 6144 * 2), Err(Refusal::Malformed)));
}

#[test]
fn solving_and_confirming() {
    let mut solver = Solver::new();
    let (names, set) = sheet("?x ~ [#km]\n[?x * ?y] ~ [#euro]\n?z: DType\n");
    let solution = solver.solve(&names, &set).unwrap();
    assert_eq!(solver.confirm(&names, &set), Ok(solution.clone()));
    assert_eq!(solution.bounds(&names).unwrap(), ["z".into()]);
    assert_eq!(solution.bindings(&NameTable::new()), Err(Refusal::Malformed));
    assert_eq!(solution.bounds(&NameTable::new()), Err(Refusal::NoRoom));
    let bindings = solution.binding_records();
    assert_eq!(solver.judge(&names, &set, &solution.entries(), bindings, solution.bound_records()), Ok(true));
    let twice = [solution.entries()[0], solution.entries()[0]];
    assert_eq!(solver.judge(&names, &set, &twice, bindings, &[]), Err(Refusal::Malformed));
    assert_eq!(solver.judge(&names, &set, &[Entry { variable: 0, place: 1 }], bindings, &[]), Ok(false));
    let (names, set) = sheet("[#km] ~ [#hour]\n");
    let stopped = solver.confirm(&names, &set).unwrap_err();
    assert_eq!((stopped.refusal, stopped.rounds), (Refusal::Unsolved, 1));
    assert_eq!(names.constraints_from(&stopped.remaining).unwrap().len(), 1);
    assert_eq!(stopped.to_string(), "no rule applies and constraints remain (5), after 1 round");
    assert!(std::error::Error::source(&stopped).is_none());
    let (names, set) = sheet("[?x * ?y] ~ [?x * ?z]\n?x ~ Bool\n");
    assert!(solver.solve(&names, &set).is_ok());
    assert_eq!(solver.confirm(&names, &set).unwrap_err().refusal, Refusal::NotConfirmed);
}

#[test]
fn both_engines() {
    let mut solver = Solver::new();
    let (names, set) = sheet("[?x^(2) * #L^(-3)] = Scalar\n");
    let solution = solver.eliminate(&names, &set).unwrap();
    assert_eq!(solution.binding_records(), solver.solve(&names, &set).unwrap().binding_records());
    assert_eq!(solution.bindings(&names).unwrap()[0].to_string(), "?x ~ [#L^(3/2)]");
    let (names, set) = sheet("[#L] = Scalar\n");
    assert_eq!(solver.eliminate(&names, &set).unwrap_err().remaining, set);
    let (names, set) = sheet("?x ~ Bool\n");
    assert_eq!(solver.eliminate(&names, &set).unwrap_err().refusal, Refusal::TooLarge);
}

#[test]
fn several_sets() {
    let (names, set) = sheet("?x ~ Bool\n");
    let torn = &set[..5];
    let long = vec![0; LIST_WORDS + 4];
    let answers = solve_all(&names, &[&set, torn, &long, &set]).unwrap();
    let refusals: Vec<Option<Refusal>> = answers.iter().map(|a| a.as_ref().err().map(|s| s.refusal)).collect();
    assert_eq!(refusals, [None, Some(Refusal::Malformed), Some(Refusal::TooLarge), None]);
    assert_eq!(answers[3].as_ref().unwrap(), &Solver::new().solve(&names, &set).unwrap());
    // before anything is allocated for them
    assert_eq!(solve_all(&names, &vec![&[][..]; 20_000_000]), Err(Refusal::TooLarge));
    assert_eq!(solve_all(&names, &[]), Ok(vec![]));
}

#[test]
fn replacing_and_schemes() {
    let mut solver = Solver::new();
    let (mut names, set) = sheet("?x ~ [#km]\n");
    let solution = solver.solve(&names, &set).unwrap();
    let (t, replaced) = (type_of(&mut names, "List<?x>"), type_of(&mut names, "List<[#km]>"));
    assert_eq!(solver.replace_in_type(&names, &t, solution.binding_records()), Ok(replaced));
    assert_eq!(solver.replace_in_type(&names, &t, &set), Err(Refusal::Malformed));
    let replaced = sheet("[#km] ~ [#km]\n").1;
    let own = solver.replace_in_set(&names, &set, solution.binding_records()).unwrap();
    assert_eq!(own.len(), replaced.len());
    assert_eq!(solver.replace_in_set(&names, &t, &[]), Err(Refusal::Malformed));
    let x = names.enter(b"x").unwrap().number;
    let scheme = solver.quantify(&names, &t, &[], &[x]).unwrap();
    assert_eq!(names.check_scheme(&scheme), Ok(()));
    assert_eq!(names.check_scheme(&t), Err(Refusal::Malformed));
    assert_eq!(solver.quantify(&names, &t, &[], &[200]), Err(Refusal::Malformed));
    let concrete = [&record(kind::SCHEME, 3, 0, 1, 0)[..], &t].concat();
    assert_eq!(solver.generalise(&names, &concrete, &[]), Ok(scheme.clone()));
    assert_eq!(solver.generalise(&names, &t, &[]), Err(Refusal::Malformed));
    assert_eq!(solver.instantiate(&names, &scheme, &[x]), Ok(t));
    assert_eq!(solver.instantiate(&names, &scheme, &[]), Err(Refusal::WrongCount));
    assert_eq!(solver.instantiate(&names, &concrete, &[]), Err(Refusal::WrongCount));
}

#[test]
fn adding() {
    let mut names = NameTable::new();
    let mut set = ConstraintSet::new();
    let mut add = |c: Constraint| {
        let records = c.records(&mut names).unwrap();
        set.add(&names, &records)
    };
    assert_eq!(add(Constraint::Equal(Type::Boolean, Type::Boolean)), Ok(Added::Satisfied));
    assert_eq!(add(Constraint::Equal(Type::Boolean, Type::String)), Ok(Added::Violated));
    assert_eq!(add(Constraint::IsDimension(variable("x"))), Ok(Added::Unknown));
    assert_eq!(set.words().len(), 4 * 5);
    assert_eq!(set.add(&names, &[]), Err(Refusal::Malformed));
}

#[test]
fn lines() {
    let (mut names, mut solver) = (NameTable::new(), Solver::new());
    let types = type_of(&mut names, "[#km]");
    let lent: Vec<u32> = ["a", "b"].iter().map(|n| names.enter(n.as_bytes()).unwrap().number).collect();
    let steps = [[step::REFERENCE, 0, 0, 0], [step::RAISE, 0, 1, 2]].concat();
    let root = solver.check_line(&names, &steps, &types, &[0], &lent).unwrap();
    assert_eq!(names.type_from(&root).unwrap().to_string(), "[#km^(1/2)]");
    assert_eq!(solver.check_line(&names, &steps, &types, &[], &lent), Err(Refusal::Malformed));
    assert_eq!(solver.check_line(&names, &steps, &types, &[0], &lent[..1]), Err(Refusal::ShortBuffer));
}

#[test]
fn files_and_room() {
    let (names, set) = sheet("?x ~ Bool\n?unused ~ Bool\n");
    let file: Vec<u8> = set.iter().flat_map(|w| w.to_le_bytes()).collect();
    let rescued = names.rescue(&file).unwrap();
    assert_eq!((rescued.kept, rescued.skipped), (file.clone(), vec![]));
    let mut damaged = file.clone();
    damaged[0] = 99;
    let rescued = names.rescue(&damaged).unwrap();
    assert_eq!((rescued.kept, rescued.skipped), (file[48..].to_vec(), vec![0, 1, 2]));
    assert_eq!(names.rescue(&vec![0; 2049 * 16]), Err(Refusal::TooLarge));
    let (mut names, mut own) = (names.clone(), set[12..].to_vec());
    assert_eq!(names.compact(&mut own, &[3]), Ok(1));
    assert_eq!((names.len(), names.name(0)), (1, Ok(&b"unused"[..])));
    assert_eq!(names.compact(&mut own, &[2]), Err(Refusal::Malformed));
    assert_eq!(names.write_text(&own).unwrap(), b"?unused ~ Bool\n");
    assert_eq!(names.write_text(&own[..4]), Err(Refusal::Malformed));
    assert_eq!(names.write_text(&[20, 0, 0]), Err(Refusal::Malformed));
}

#[test]
fn trees_are_refused() {
    let mut names = NameTable::new();
    let mut deep = variable("x");
    for _ in 0..64 {
        deep = Type::List(Box::new(deep));
    }
    assert_eq!(deep.records(&mut names), Err(Refusal::Malformed));
    let factor = Factor { base: Base::Variable, name: "x".into(), power: Power { numerator: 2, denominator: 4 } };
    assert_eq!(Type::Dimension(vec![factor]).records(&mut names), Err(Refusal::Malformed));
    assert_eq!(Type::Function(vec![variable("x"); 2048], Box::new(Type::Boolean)).records(&mut names), Err(Refusal::TooLarge));
    assert_eq!(variable("").records(&mut names), Err(Refusal::NameLength));
    assert!(names.is_empty());
    let set = [Constraint::HasField(variable("x"), "f".into(), Type::DateTime)];
    let records = records_of(&set, &mut names).unwrap();
    assert_eq!(names.constraints_from(&records).unwrap(), set);
    assert_eq!(names.constraints_from(&records[4..]), Err(Refusal::Malformed));
    assert_eq!((names.type_from(&records), names.bindings_from(&records)), (Err(Refusal::Malformed), Err(Refusal::Malformed)));
}

#[test]
#[should_panic(expected = "at most 65,535")]
fn a_length_that_no_word_holds() {
    record(kind::FUNCTION, 65_536, 0, 0, 0);
}

/// Each well formed set of the stored cases as trees: they print as the library writes the set, and their records are the set again.
#[test]
fn trees_of_stored_sets() {
    let mut tried = 0;
    for case in stored() {
        let mut names = NameTable::new();
        if case.names.iter().any(|n| names.enter(n.as_bytes()).is_err()) {
            continue;
        }
        for set in &case.lists {
            if set.is_empty() || names.check_set(set).is_err() {
                continue;
            }
            let trees = names.constraints_from(set).unwrap();
            let text: String = trees.iter().map(|c| format!("{c}\n")).collect();
            assert_eq!(text.as_bytes(), names.write_text(set).unwrap(), "{}", case.comment);
            assert_eq!(&records_of(&trees, &mut names).unwrap(), set, "{}", case.comment);
            tried += 1;
        }
    }
    assert!(tried > 500, "{tried}");
}
