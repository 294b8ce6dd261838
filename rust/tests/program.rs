//! The desk's program as it is run: what it prints, and how it ends.
mod common;
use common::{path, stdout, stored, tariff, tariff_in};
use std::path::{Path, PathBuf};
use std::process::Output;

const SAMPLES: [&str; 5] = ["samples/child", "samples/missing", "samples/open", "samples/renewals", "samples/unpaired"];

fn expected(folder: &str) -> String {
    std::fs::read_to_string(path(folder).join("expected")).expect("an answer")
}

fn status(output: &Output) -> i32 {
    output.status.code().expect("it ends by itself")
}

/// A folder with these three texts.
fn folder(name: &str, texts: [&[u8]; 3]) -> String {
    let folder = PathBuf::from(env!("CARGO_TARGET_TMPDIR")).join(name);
    std::fs::create_dir_all(&folder).expect("a folder");
    for (part, text) in ["theory", "goals", "proof"].iter().zip(texts) {
        std::fs::write(folder.join(part), text).expect("a file");
    }
    folder.display().to_string()
}

/// What is explained of these texts, with the folder's name taken out. It is run beside the folder, since a long name would break lines.
fn explained(name: &str, texts: [&[u8]; 3]) -> String {
    folder(name, texts);
    let output = tariff_in(Path::new(env!("CARGO_TARGET_TMPDIR")), &["check", name, "--explain"]);
    assert!(output.stderr.is_empty() && status(&output) == 1);
    stdout(&output).replace(&format!("{name}/"), "")
}

#[test]
fn the_line_byte_for_byte() {
    for sample in SAMPLES {
        let files = ["theory", "goals", "proof"].map(|part| format!("{sample}/{part}"));
        for output in [tariff(&["check", &files[0], &files[1], &files[2]]), tariff(&["check", sample])] {
            assert_eq!(stdout(&output), expected(sample));
            assert_eq!(status(&output), i32::from(expected(sample).starts_with("(refused")));
            assert!(output.stderr.is_empty());
        }
    }
}

#[test]
fn several_folders_a_line_each() {
    let output = tariff(&[&["check"], &SAMPLES[..]].concat());
    let want: String = SAMPLES.iter().map(|s| format!("{s}\t{}", expected(s))).collect();
    assert_eq!((stdout(&output), status(&output)), (want, 1));
    assert_eq!(status(&tariff(&["check", "samples/child", "samples/renewals"])), 0);
}

#[test]
fn what_cannot_be_read() {
    let output = tariff(&["check", "samples/child/theory", "samples/child/nowhere", "samples/child/proof"]);
    assert_eq!((stdout(&output).as_str(), status(&output)), ("", 2));
    assert!(String::from_utf8_lossy(&output.stderr).starts_with("tariff: samples/child/nowhere: "));
    // a folder without the files ends with 2, and the others are checked all the same
    let output = tariff(&["check", "docs", "samples/open", "samples/child"]);
    assert_eq!((stdout(&output).lines().count(), status(&output)), (2, 2));
    for words in [&["check"][..], &["check", "nowhere"], &["look"], &["check", "samples/child", "--loud"], &["explain", "6"]] {
        let output = tariff(words);
        assert_eq!((stdout(&output).as_str(), status(&output)), ("", 2), "{words:?}");
        assert!(output.stderr.starts_with(b"tariff: "), "{words:?}");
    }
}

#[test]
fn a_long_text_is_refused() {
    let folder = folder("long", [&[b' '; 70_000], b"", b""]);
    assert_eq!(stdout(&tariff(&["check", &folder])), "(refused 2 1 0 0)\n");
}

const OPEN: &str = "\
(refused 51 3 5 0)
error[51]: the result rests on hypotheses that its goal does not list
 --> samples/open/proof:6:1
  |
6 | (result everybody 2)   ; rests on a hypothesis
  | ^^^^^^^^^^^^^^^^^^^^ refused
  |
  = goal everybody: (Child x)
  = fact 2: (Child (renew y)), resting on 1 (Child y)
  = question: Does the result rest on no hypotheses but those that its goal lists?
  = help: Discharge them by `induct`, `invert` or `apply`, or list their judgments at the goal.
  = to mend: whoever writes the proof
  = original: \"result … depends on hypotheses\"
";

const MISSING: &str = "\
(refused 53 3 2 1)
error[53]: goals are left without a result
 --> samples/missing/proof:3:1
 --> samples/missing/goals:2:7
  |
2 | (goal everybody (Child x))
  |       ^^^^^^^^^ no result
  |
  = detail: 1 of 2 goals without a result: everybody
  = question: Has every goal its result?
  = help: Add a `(result GOAL FACT)` for each.
  = to mend: whoever writes the proof
  = original: \"missing results: …\"
";

#[test]
fn an_explanation_whole() {
    assert_eq!(stdout(&tariff(&["check", "samples/open", "--explain"])), OPEN);
    assert!(common::page("docs/USING.md").contains(OPEN), "the page shows the same");
    assert_eq!(stdout(&tariff(&["check", "samples/missing", "--explain"])), MISSING);
    let accepted = "(accepted 4 1 1 1 1 0 0)\naccepted: 4 facts, 1 goal (1 open), 1 hypothesis, 1 induction, 0 inversions, 0 instances\n";
    assert_eq!(stdout(&tariff(&["check", "samples/child", "--explain"])), accepted);
}

const GOALS: &[u8] = b"(var x Pass)\n(var y Pass)\n(goal g (Child x))";

#[test]
fn a_variable_by_its_name_and_a_rule_by_its_place() {
    let out = explained("absent", [common::THEORY, GOALS, b"(step 0 all () (?p y))\n  (step 1\n any (0))"]);
    assert!(out.starts_with("(refused 39 3 1 2)\nerror[39]: "), "{out}");
    for part in [
        " --> proof:2:3\n  |\n2 |   (step 1\n  |   ^^^^^^^\n3 |  any (0))\n  |  ^^^^^^^^ refused\n",
        "  = detail: the variable is y, declared at goals:2:6\n",
        "  = rule any: (rule any ((Child ?p)) (Any)), at theory:2:99\n",
        "  = fact 0: (Child y)\n",
    ] {
        assert!(out.contains(part), "{part}\n{out}");
    }
}

#[test]
fn what_the_form_goes_through_and_names_that_are_not_known() {
    let out = stdout(&tariff(&["check", "samples/unpaired", "--explain"]));
    assert!(out.contains("  = constructors of Pass: first, (renew Pass)\n  = fact 0: (Child first)\n"), "{out}");
    assert!(out.contains("\"step …: expected … cases\"") && !out.contains("two cases for rule"), "{out}");
    let out = explained("u", [common::THEORY, b"(goal g (Chlid first))", b""]);
    assert!(out.contains("= name: Chlid is not declared before this form; did you mean Child, declared at theory:1:65?\n"), "{out}");
    let out = explained("rules", [common::THEORY, GOALS, b"(hyp 0 (Child x)) (invert 1 0 () (Any) ())"]);
    assert!(out.contains("= rules for Child: c0 (Child first), c1 (Child (renew ?p)), all (Child ?p)\n"), "{out}");
    assert!(out.contains("= fact 0: (Child x), a hypothesis\n"), "{out}");
}

#[test]
fn a_row_with_its_limit() {
    let theory: String = (0..65).map(|k| format!("(sort S{k})\n")).collect();
    let out = explained("sorts", [theory.as_bytes(), b"", b""]);
    assert!(out.starts_with("(refused 60 1 64 1)\n") && out.contains(" --> theory:65:1\n"), "{out}");
    assert!(out.contains("65 | (sort S64)\n") && out.contains("= detail: row 1 of the limits, sorts: at most 64\n"), "{out}");
}

#[test]
fn brackets_bytes_and_what_stands_at_the_end() {
    let out = explained("stray", [b"(sort S)\n )", b"", b""]);
    assert!(out.contains(" --> theory:2:2\n  |\n2 |  )\n  |  ^ closes nothing\n"), "{out}");
    let out = explained("unclosed", [b"(sort S)", b"(var x S)\n(goal g (P x)", b""]);
    assert!(out.contains(" --> goals:2:1\n") && out.contains("^ is never closed\n"), "{out}");
    let out = explained("byte", [b"(sort S) ; \xc3\xa9", b"", b""]);
    assert!(out.contains(" --> theory:1:12\n") && out.contains("^ not a byte below 128\n"), "{out}");
    let out = explained("no-goal", [b"(sort S)", b"; nothing\n", b""]);
    assert!(out.contains(" --> goals:2:1\n") && out.contains("question: Is there at least one goal?"), "{out}");
    let out = explained("next", [common::THEORY, GOALS, b"(step 0 c0 ()) (step 2 c0 ())"]);
    assert!(out.contains("= detail: the next index is 1\n"), "{out}");
}

#[test]
fn facts_as_lines() {
    let output = tariff(&["check", "samples/missing", "--facts"]);
    assert_eq!(stdout(&output), "(refused 53 3 2 1)\n(fact 0 (Child first) () 0 () ())\n(footing 0 c0)\n(missing [1])\n");
    for [name, theory, goals, proof, answer, facts, footings] in stored().iter().filter(|c| c[5].len() > 100).step_by(40) {
        let folder = folder("stored", [theory, goals, proof]);
        let out = stdout(&tariff(&["check", &folder, "--facts"]));
        let want = [answer, &b"\n"[..], facts, footings, b"(missing ["].concat();
        assert!(out.as_bytes().starts_with(&want), "{}\n{out}", String::from_utf8_lossy(name));
    }
}

#[test]
fn one_object_a_line() {
    let out = stdout(&tariff(&["check", "samples/missing", "samples/child", "--json", "--facts"]));
    let lines: Vec<&str> = out.lines().collect();
    assert_eq!(lines.len(), 2);
    for part in [
        "{\"folder\":\"samples/missing\",",
        "\"accepted\":false,\"answer\":\"(refused 53 3 2 1)\",\"number\":53,\"text\":\"proof\",\"form\":2,\"detail\":1,\"missing\":[\"everybody\"],",
        "\"place\":{\"file\":\"samples/missing/proof\",\"line\":3,\"column\":1,\"end_line\":3,\"end_column\":1}",
        "\"notes\":[\"detail: 1 of 2 goals without a result: everybody\"]",
        "\"facts\":[{\"index\":0,\"judgment\":\"(Child first)\",\"assumed\":false,\"hypotheses\":[],",
    ] {
        assert!(lines[0].contains(part), "{part}\n{}", lines[0]);
    }
    assert!(lines[1].contains("\"accepted\":true,\"answer\":\"(accepted 4 1 1 1 1 0 0)\",\"steps\":4,"), "{}", lines[1]);
}

#[test]
fn questions_by_number() {
    let output = tariff(&["explain", "41"]);
    let out = stdout(&output);
    assert!(out.starts_with("question 41: Are the cases of right shape and number?\n") && status(&output) == 0, "{out}");
    assert!(out.contains("  original: step …: expected … cases\n"));
    assert_eq!(stdout(&tariff(&["explain"])).lines().count(), 38);
    assert!(stdout(&tariff(&["explain", "60"])).contains("  row 12: 1,024 facts\n"));
    assert!(stdout(&tariff(&["--help"])).starts_with("tariff check THEORY GOALS PROOF"));
}
