//! Steps and lists of them: what their bytes say, for every byte, and how they are made of bytes and read from a file.

use hanjolum::*;

#[test]
fn a_step_says_what_it_was_made_of() {
    for (sector, cell) in (0..64).flat_map(|sector| (0..100).map(move |cell| (sector, cell))) {
        let step = Step::goal(sector, cell);
        assert_eq!((step.sector(), step.target()), (Some(sector), Some(Target::Goal { cell })));
    }
    for (number, boundary) in (0..).zip(Boundary::ALL) {
        let step = Step::window(63, boundary, 0, 99);
        assert_eq!(step.bytes(), &[63, 0, 1, 0, 99, number, 0, 0]);
        assert_eq!((step.sector(), step.target()), (Some(63), Some(Target::Window { boundary, first: 0, last: 99 })));
    }
}

/// Each byte of a goal's step and of a window's with every value: it is none exactly where it is out of range.
#[test]
fn a_byte_that_is_out_of_range_is_told() {
    for byte in 0..=255u8 {
        let with = |step: Step, place: usize| {
            let mut bytes = *step.bytes();
            bytes[place] = byte;
            Step::from_bytes(bytes)
        };
        let (goal, window) = (Step::goal(9, 44), Step::window(10, Boundary::West, 30, 60));
        for step in [goal, window] {
            assert_eq!(with(step, 0).sector(), (byte < 64).then_some(byte));
            assert_eq!(with(step, 0).target(), step.target());
            assert_eq!(with(step, 2).target().is_some(), byte < 2);
            // The last two bytes say nothing of a target: planning judges them.
            assert_eq!((with(step, 6).target(), with(step, 7).target()), (step.target(), step.target()));
        }
        assert_eq!(with(goal, 1).target(), (byte < 100).then_some(Target::Goal { cell: byte }));
        assert_eq!(with(window, 1).target(), window.target());
        for place in [3, 4, 5] {
            assert_eq!(with(goal, place).target(), goal.target());
        }
        let expected = |boundary, first, last| Some(Target::Window { boundary, first, last });
        assert_eq!(with(window, 3).target(), (byte < 100).then_some(()).and(expected(Boundary::West, byte, 60)));
        assert_eq!(with(window, 4).target(), (byte < 100).then_some(()).and(expected(Boundary::West, 30, byte)));
        let boundary = Boundary::ALL.get(usize::from(byte)).copied();
        assert_eq!(with(window, 5).target(), boundary.and_then(|boundary| expected(boundary, 30, 60)));
    }
}

/// A step that says none of its sector or its target is refused by the library with 4, 5 or 6, and where it says both, with none of
/// these unless its last two bytes are not 0.
#[test]
fn what_a_step_says_is_what_the_library_judges() {
    let mut bytes = [0; STEP];
    let tried = [0, 1, 2, 3, 4, 9, 44, 63, 64, 90, 99, 100, 255];
    let mut seen = [0; 2];
    for draw in 0..13usize.pow(5) {
        let part = |place: u32| tried[draw / 13usize.pow(place) % 13];
        bytes[..6].copy_from_slice(&[part(0), part(1), part(2), part(3), part(4), part((draw % 5) as u32)]);
        let step = Step::from_bytes(bytes);
        let refused = init(&[1; CELLS], step).err();
        let bad = [Some(Refusal::StepBytes), Some(Refusal::Goal), Some(Refusal::Window)].contains(&refused);
        assert_eq!(step.sector().is_none() || step.target().is_none(), bad, "{bytes:?}: {refused:?}");
        seen[usize::from(bad)] += 1;
    }
    assert!(seen[0] > 1000 && seen[1] > 1000, "{seen:?}");
}

#[test]
fn steps_are_made_of_bytes() {
    let goal = Step::goal(9, 44);
    assert_eq!(Step::try_from(&goal.bytes()[..]), Ok(goal));
    assert_eq!((Step::from(*goal.bytes()), <[u8; STEP]>::from(goal)), (goal, *goal.bytes()));
    for length in [0, 7, 9, 16] {
        assert_eq!(Step::try_from(&[0; 16][..length]), Err(Refusal::StepList), "{length} bytes");
    }
    let bytes: [u8; 144] = core::array::from_fn(|place| place as u8);
    for length in 0..=144 {
        let made = Steps::try_from(&bytes[..length]);
        assert_eq!(made.is_ok(), length > 0 && length <= 128 && length % 8 == 0, "{length} bytes");
        if let Ok(steps) = made {
            assert_eq!((steps.as_ref() as &[u8], steps.len()), (&bytes[..length], length / 8));
        }
    }
}

#[test]
fn a_list_reads_as_a_slice() {
    let list: [Step; STEPS] = core::array::from_fn(|place| Step::goal(place as u8, 99 - place as u8));
    for count in 1..=STEPS {
        let steps = Steps::new(&list[..count]).unwrap();
        assert_eq!((steps.len(), steps.is_empty(), &steps[..]), (count, false, &list[..count]));
        assert_eq!((steps.first(), steps.get(count)), (Some(&list[0]), None));
        assert_eq!(steps.iter().copied().collect::<Vec<_>>(), list[..count]);
        assert_eq!((&steps).into_iter().count(), count);
        assert_eq!(
            AsRef::<[u8]>::as_ref(&steps),
            list[..count].iter().flat_map(|step| *step.bytes()).collect::<Vec<_>>()
        );
        assert_eq!(Steps::try_from(AsRef::<[u8]>::as_ref(&steps)), Ok(steps));
        let file = leg_file_write(steps).unwrap();
        assert_eq!(leg_file_read(file.as_ref()), Ok(steps));
    }
}

/// A file whose bytes are no steps is read as it is, and planning refuses it.
#[test]
fn a_file_s_bytes_are_not_judged() {
    let damaged = [Step::from_bytes([64, 0, 0, 0, 0, 0, 0, 0]), Step::from_bytes([255; STEP])];
    let file = leg_file_write(Steps::new(&damaged).unwrap()).unwrap();
    let read = leg_file_read(file.as_ref()).unwrap();
    assert_eq!(read.as_slice(), damaged);
    assert_eq!(
        read.iter().map(|step| (step.sector(), step.target())).collect::<Vec<_>>(),
        [(None, Some(Target::Goal { cell: 0 })), (None, None)]
    );
    assert_eq!(leg(&[1; FLOOR], read, &mut [0; FLOOR]), Err(Refusal::StepBytes));
}
