//! FORMAT.md: the files that it takes apart, its limits, its refusals.

use super::*;
use postman_tests::oracle::{file_of, parse, read_refusal};

fn bytes(hex: &[&str]) -> Vec<u8> {
    let digits = hex.iter().flat_map(|line| line.split_whitespace());
    digits.map(|byte| u8::from_str_radix(byte, 16).expect("a byte in hex")).collect()
}

/// Each file in hex: the rows after it are its bits, one field after the other, and the fields are what reading gives.
#[test]
fn files_are_taken_apart() {
    let document = text("docs/FORMAT.md");
    let files = blocks(&document, "hex");
    let mut editions = BTreeSet::new();
    for (hex, after) in &files {
        let file = bytes(hex);
        let (mut bits, mut fields) = (String::new(), Vec::new());
        for row in table(after) {
            let [from, of_field, name, value] = row[..] else { panic!("four cells: {row:?}") };
            let of_field = of_field.trim_matches('`');
            assert_eq!(from, bits.len().to_string(), "{name} begins elsewhere");
            assert_eq!(u32::from_str_radix(of_field, 2), Ok(value.parse().expect("a number")), "{name}");
            bits += of_field;
            fields.push((name, value.parse::<u32>().expect("a number")));
        }
        let of_file: String = file.iter().map(|byte| format!("{byte:08b}")).collect();
        assert_eq!(bits, of_file);

        let plan = parse(&file);
        let mut expected = vec![
            ("edition".to_string(), u32::from(plan.edition)),
            ("vertex count".to_string(), plan.n as u32),
            ("arc count".to_string(), plan.arcs.len() as u32),
        ];
        for (k, arc) in plan.arcs.iter().enumerate() {
            let mut of_arc =
                vec![("tail", arc.tail.into()), ("head", arc.head.into()), ("standing", arc.standing.into())];
            of_arc.push(("cost", arc.cost.into()));
            if plan.edition == 2 {
                of_arc.push(("checking cost", u32::from(arc.checking)));
            }
            expected.extend(of_arc.into_iter().map(|(name, value)| (format!("arc {k}, {name}"), value)));
        }
        expected.push(("fill".to_string(), 0));
        let fields: Vec<(String, u32)> = fields.iter().map(|&(name, value)| (name.to_string(), value)).collect();
        assert_eq!(fields, expected);
        assert_eq!((read_refusal(&file, plan.arcs.len()), file_of(&plan)), (0, file.clone()));
        editions.insert(plan.edition);

        #[cfg(feature = "proved")]
        {
            let read = postman::Plan::read(&file).expect("a plan");
            assert_eq!((read.edition.number(), read.vertices), (plan.edition, plan.n as u32));
            let same = |a: &postman::Arc, b: &postman_tests::plan::Arc| {
                (a.tail, a.head, a.standing.number(), a.cost, a.checking)
                    == (b.tail, b.head, b.standing, b.cost, b.checking)
            };
            assert!(read.arcs.iter().zip(&plan.arcs).all(|(a, b)| same(a, b)));
            assert_eq!(read.write(), Ok(file));
        }
    }
    assert_eq!(editions, BTreeSet::from([1, 2]), "an example of each edition");
}

/// The reader in Python reads the files in hex as the oracle does.
#[test]
fn the_reader_in_python_reads() {
    let document = text("docs/FORMAT.md");
    let readers = blocks(&document, "python");
    assert_eq!(readers.len(), 1);
    for (hex, _) in blocks(&document, "hex") {
        let plan = parse(&bytes(&hex));
        let script = format!("{}\nprint(read(bytes.fromhex({:?})))", readers[0].0.join("\n"), hex.join(" "));
        let output = std::process::Command::new("python3").args(["-c", &script]).output().expect("python3");
        let arcs = plan.arcs.iter().map(|a| {
            let fields = [a.tail.into(), a.head.into(), a.standing.into(), a.cost, a.checking];
            format!("{:?}", &fields[..if plan.edition == 2 { 5 } else { 4 }])
        });
        let expected = format!("({}, {}, [{}])", plan.edition, plan.n, arcs.collect::<Vec<String>>().join(", "));
        assert_eq!(String::from_utf8_lossy(&output.stdout).trim_end(), expected);
    }
}

/// What the header defines, by name.
fn defined(header: &str) -> BTreeMap<&str, u32> {
    let lines = header.lines().filter_map(|line| line.strip_prefix("#define "));
    let pairs = lines.filter_map(|line| line.split_once(' '));
    pairs
        .filter_map(|(name, value)| Some((name, value.split(' ').next()?.trim_end_matches('u').parse().ok()?)))
        .collect()
}

#[test]
fn limits_are_the_headers() {
    let (document, header) = (text("docs/FORMAT.md"), text("include/postman.h"));
    let defined = defined(&header);
    let rows = table(section(&document, "## Limits"));
    assert!(rows.len() >= 11, "limits are missing");
    for row in rows {
        let (name, value) = (row[2].trim_matches('`'), row[1].replace(',', ""));
        assert_eq!(defined.get(name).map(u32::to_string), Some(value), "{name}");
    }
}

/// The refusals' numbers and trade words, as the header and the words in C have them.
fn words() -> BTreeMap<u32, String> {
    let (header, source) = (text("include/postman.h"), text("bindings/c/words.c"));
    let names = header.lines().filter_map(|line| line.trim().strip_prefix("POSTMAN_REFUSED_")?.split_once(" = "));
    let word_of = |name: &str| {
        let (_, after) = source.split_once(&format!("[POSTMAN_REFUSED_{name}] = \"")).expect("a word");
        after.split('"').next().expect("a word").to_string()
    };
    let number = |rest: &str| rest.chars().take_while(char::is_ascii_digit).collect::<String>().parse::<u32>();
    names.map(|(name, rest)| (number(rest).expect("a number"), word_of(name))).collect()
}

#[test]
fn refusals_are_the_librarys() {
    let document = text("docs/FORMAT.md");
    let rows = table(section(&document, "## Refusals"));
    let shown: BTreeMap<u32, String> =
        rows.iter().map(|row| (row[0].parse().expect("a number"), row[1].to_string())).collect();
    assert_eq!(rows.len(), shown.len());
    assert!(rows.iter().all(|row| row.len() == 5 && row.iter().all(|cell| !cell.is_empty())));
    assert_eq!(shown, words());
}

/// Which calls give a refusal is what the calls say that they refuse.
#[test]
fn refusals_of_the_calls() {
    let document = text("docs/FORMAT.md");
    for row in table(section(&document, "## Refusals")) {
        let number: u32 = row[0].parse().expect("a number");
        let given: BTreeSet<&str> = row[3].split(", ").collect();
        for (call, refusals) in calls::refusals() {
            assert_eq!(given.contains(&call[..]), refusals.contains(&number), "{number} and {call}");
        }
    }
}
