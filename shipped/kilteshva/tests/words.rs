//! What is shown to people.

use kilteshva::{Answer, Model, Refusal, Unknown};

#[test]
fn every_refusal_has_its_number_and_words_of_its_own() {
    let numbers = Refusal::ALL.map(Refusal::number);
    assert_eq!(numbers, [2, 4, 5, 6, 20, 21, 22, 23, 24, 25]);
    for refusal in Refusal::ALL {
        assert_eq!(Refusal::of_number(refusal.number()), Some(refusal));
        let same = |other: &Refusal| other.meaning() == refusal.meaning();
        assert_eq!(Refusal::ALL.iter().filter(|other| same(other)).count(), 1);
    }
    let others = (0..=255).filter(|number| !numbers.contains(number));
    assert!(others.map(Refusal::of_number).all(|none| none.is_none()));
}

#[test]
fn an_answer_reads_as_a_line() {
    let refusal = Refusal::SecondInvoke;
    let lines = [
        (
            Answer::Order {
                threads: vec![0, 1],
                attempts: 2,
            },
            "Order: threads 0 1 (2 attempts)",
        ),
        (
            Answer::NoOrder { attempts: 1 },
            "No order: no one-at-a-time order explains it (1 attempt)",
        ),
        (
            Answer::Undecided { attempts: 7 },
            "Undecided: a budget of 7 attempts does not cover the search",
        ),
        (
            Answer::Invalid { refusal, place: 9 },
            "Invalid: refusal 4 in the event at byte 9: the thread invokes an operation while its last one is still in \
             flight",
        ),
        (
            Answer::Refused {
                refusal: Refusal::NotACapture,
                place: 0,
            },
            "Refused: refusal 21 in the header: the file does not open with the bytes RAW1",
        ),
    ];
    for (answer, line) in lines {
        assert_eq!(answer.to_string(), line);
    }
}

#[test]
fn only_an_order_is_green() {
    let unknown = Unknown {
        result: 0,
        bytes: [0; 79],
    };
    let refusal = Refusal::CutOff;
    let red = [
        Answer::NoOrder { attempts: 0 },
        Answer::Undecided { attempts: 0 },
        Answer::Invalid { refusal, place: 9 },
        Answer::Refused { refusal, place: 9 },
        Answer::Unknown(unknown),
    ];
    assert!(red.iter().all(|answer| !answer.is_order()));
    let threads = vec![];
    assert!(Answer::Order {
        threads,
        attempts: 0
    }
    .is_order());
}

#[test]
fn models_have_names_and_numbers() {
    assert_eq!(Model::Sequential.to_string(), "sequential");
    assert_eq!(Model::Linearizable.to_string(), "linearizable");
    assert_eq!(Model::Sequential.number(), 0);
    assert_eq!(Model::Linearizable.number(), 1);
}

#[test]
fn a_model_is_read_by_its_name_alone() {
    for model in Model::ALL {
        assert_eq!(model.to_string().parse(), Ok(model));
    }
    for name in ["", "both", "Linearizable", "sequential ", "1"] {
        let unknown = name.parse::<Model>().expect_err(name);
        let told = format!("a model is linearizable or sequential, not {name}");
        assert_eq!(unknown.to_string(), told);
    }
}
