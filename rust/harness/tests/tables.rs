//! The text of the published `registers.rs`, `config.rs` and `lib.rs` against the tables that the proofs are about, and against the
//! names in the code: a proof speaks of a constant's or a method's value, not of its name.
//!
//! The text is read here line by line, apart from the macro that the oracle is built with.

use harness::registers::{ADDRESSES, GROUPS};
use harness::{compared, text};

const PUBLISHED: &str = "rust/oracle/src/registers.rs";

const TABLE: &str = "crates/registers/specs/Table.antt";

/// The code of the register types, in the written order.
const METHODS: [&str; 4] = [
    "crates/registers_interrupts/src/lib.rt",
    "crates/registers_actuator/src/lib.rt",
    "crates/registers_control/src/lib.rt",
    "crates/registers_trigger/src/lib.rt",
];

const PADDING: &str = "__";

/// A field of the published text.
struct Field {
    name: String,
    width: u32,
    read_only: bool,
}

/// The published register types in the written order.
fn published_types() -> Vec<(String, Vec<Field>)> {
    let mut types: Vec<(String, Vec<Field>)> = Vec::new();
    let mut inside = false;
    let mut bits = None;
    for line in text(PUBLISHED).lines().map(str::trim) {
        if let Some(line) = line.strip_prefix("pub struct ") {
            types.push((line.trim_end_matches(['{', ' ']).to_string(), Vec::new()));
            inside = true;
        } else if line == "}" {
            inside = false;
        } else if let Some(line) = line.strip_prefix("#[bits(") {
            let arguments = line.trim_end_matches(")]");
            let width = arguments.trim_end_matches(", access = RO");
            bits = Some((width.parse().unwrap(), width != arguments));
        } else if inside && !line.starts_with("///") {
            let (name, kind) = line.trim_end_matches(',').split_once(": ").unwrap();
            let whole = match kind {
                "bool" => (1, false),
                "u8" => (8, false),
                _ => panic!("{line}"),
            };
            let (width, read_only) = bits.take().unwrap_or(whole);
            let name = name.trim_start_matches("pub ").to_string();
            types.last_mut().unwrap().1.push(Field { name, width, read_only });
        }
    }
    types
}

/// The published names and addresses in the written order.
fn published_addresses() -> Vec<(String, u8)> {
    let text = text(PUBLISHED);
    let (_, body) = text.split_once("pub enum Register {").unwrap();
    let (body, _) = body.split_once('}').unwrap();
    body.lines()
        .filter_map(|line| line.trim().trim_end_matches(',').split_once(" = "))
        .map(|(name, address)| (name.to_string(), number(address) as u8))
        .collect()
}

fn number(word: &str) -> u32 {
    match word.strip_prefix("0x") {
        Some(digits) => u32::from_str_radix(digits, 16),
        None => word.parse(),
    }
    .unwrap_or_else(|error| panic!("{word}: {error}"))
}

/// The words of a file of definitions, without comments and brackets.
fn words(path: &str) -> Vec<String> {
    text(path)
        .lines()
        .map(|line| line.split("--").next().unwrap())
        .flat_map(|line| line.split(|c: char| c.is_whitespace() || c == '(' || c == ')'))
        .filter(|word| !word.is_empty())
        .map(str::to_string)
        .collect()
}

/// A row of the table: a name, an address and the parts.
type Row = (String, u8, Vec<(String, u32)>);

/// The rows `entry "NAME" address (part "FIELD" width ∷ ... ∷ [])` of the table, and the names of `read_only = "FIELD" ∷ ... ∷ []`.
fn table() -> (Vec<Row>, Vec<String>) {
    let words = words(TABLE);
    let unquoted = |word: &String| word.trim_matches('"').to_string();
    let mut rows = Vec::new();
    let mut read_only = Vec::new();
    for at in 1..words.len().saturating_sub(2) {
        if words[at] == "read_only" && words[at + 1] == "=" {
            let names = words[at + 2..].iter().take_while(|word| *word != "[]");
            read_only.extend(names.filter(|word| *word != "∷").map(unquoted));
        }
        if words[at] != "entry" || !words[at + 1].starts_with('"') {
            continue;
        }
        let name = unquoted(&words[at + 1]);
        let mut parts = Vec::new();
        let mut rest = &words[at + 3..];
        while let [part, field, width, cons, more @ ..] = rest
            && part == "part"
        {
            assert_eq!(cons, "∷", "{name}");
            parts.push((unquoted(field), number(width)));
            rest = more;
        }
        assert_eq!(rest.first().map(String::as_str), Some("[]"), "{name}");
        rows.push((name, number(&words[at + 2]) as u8, parts));
    }
    // A quoted name anywhere else would be a register or a part that was not read.
    let quoted = words.iter().filter(|word| word.starts_with('"')).count();
    let parts = rows.iter().map(|(_, _, parts)| parts.len()).sum::<usize>();
    assert_eq!(quoted, rows.len() + parts + read_only.len());
    (rows, read_only)
}

#[test]
fn read_only_fields_are_the_published_ones() {
    let fields = published_types().into_iter().flat_map(|(_, fields)| fields);
    let wanted: Vec<_> = fields.filter(|field| field.read_only).map(|field| field.name).collect();
    let (_, listed) = table();
    assert_eq!(listed, wanted);
    compared("read-only fields", listed.len(), 3);
}

#[test]
fn parts_are_the_published_fields() {
    let wanted: Vec<(String, Vec<(String, u32)>)> = published_types()
        .into_iter()
        .map(|(name, fields)| {
            (name, fields.into_iter().map(|field| (field.name, field.width)).collect())
        })
        .collect();
    let rows = table().0.into_iter().filter(|(_, _, parts)| !parts.is_empty());
    let listed: Vec<_> = rows.map(|(name, _, parts)| (name, parts)).collect();
    assert_eq!(listed, wanted);

    for (name, parts) in &listed {
        assert_eq!(parts.iter().map(|(_, width)| width).sum::<u32>(), 8, "{name}");
    }
    let parts = listed.iter().flat_map(|(_, parts)| parts);
    let named = parts.filter(|(name, _)| name != PADDING).count();
    compared("register types", listed.len(), 39);
    compared("named fields", named, 89);
}

#[test]
fn addresses_are_the_published_ones() {
    let listed: Vec<_> = table().0.into_iter().map(|(name, address, _)| (name, address)).collect();
    assert_eq!(listed, published_addresses());
    compared("addresses", listed.len(), 42);
}

/// Each constant of `Register` has the address that the published text gives its name, and `NAMED` goes through them in order, each
/// beside its own name.
#[test]
fn constants_are_the_published_addresses() {
    let text = text("crates/registers/src/lib.rt");
    let mut constants = Vec::new();
    let mut named = Vec::new();
    for line in text.lines().map(str::trim) {
        if let Some(rest) = line.strip_prefix("(\"") {
            let (name, constant) =
                rest.strip_suffix("),").unwrap().split_once("\", Register::").unwrap();
            assert_eq!(name, constant);
            named.push(name.to_string());
        } else if let Some(rest) =
            line.strip_prefix("pub const ").filter(|rest| !rest.starts_with("NAMED: "))
        {
            let (name, value) = rest.split_once(": Register = Register(0x").unwrap();
            let value = u8::from_str_radix(value.strip_suffix(");").unwrap(), 16).unwrap();
            constants.push((name.to_string(), value));
        }
    }
    let published = published_addresses();
    assert_eq!(constants, published);
    let names: Vec<_> = published.into_iter().map(|(name, _)| name).collect();
    assert_eq!(named, names);
    compared("constants of Register", constants.len(), 42);
}

/// Each register type is the `Byte` of the address that the published text gives its name.
#[test]
fn types_are_of_the_published_addresses() {
    let mut types = Vec::new();
    for path in METHODS {
        for line in text(path).lines() {
            if let Some((name, address)) =
                line.strip_prefix("pub type ").and_then(|rest| rest.split_once(" = Byte<0x"))
            {
                let address = u8::from_str_radix(address.strip_suffix(">;").unwrap(), 16).unwrap();
                types.push((name.to_string(), address));
            }
        }
    }
    let published = published_types();
    let of_a_type = |name: &String| published.iter().any(|(of, _)| of == name);
    let wanted: Vec<_> =
        published_addresses().into_iter().filter(|(name, _)| of_a_type(name)).collect();
    assert_eq!(types, wanted);
    compared("addresses of register types", types.len(), 39);
}

/// Each method of a register type is named after the field, and stands in the type, that its contract speaks of.
#[test]
fn methods_cite_their_own_fields() {
    let mut wanted = Vec::new();
    for (name, fields) in published_types() {
        for field in fields.into_iter().filter(|field| field.name != PADDING) {
            wanted.push((name.clone(), field.name.clone()));
            if !field.read_only {
                wanted.push((name.clone(), format!("with_{}", field.name)));
            }
        }
    }

    let mut methods = Vec::new();
    for path in METHODS {
        let (mut of, mut method) = (String::new(), String::new());
        for line in text(path).lines().map(str::trim) {
            if let Some(rest) = line.strip_prefix("impl ") {
                of = rest.trim_end_matches([' ', '{']).to_string();
            } else if let Some(rest) = line.strip_prefix("pub fn ") {
                method = rest.split('(').next().unwrap().to_string();
            }
            let Some(at) =
                ["get_at ", "is_at ", "with_at "].iter().find(|it| line.contains(&format!("≡ {it}")))
            else {
                continue;
            };
            let field = method.trim_start_matches("with_");
            let cited = format!("≡ {at}(parts_of \"{of}\") \"{field}\" self.0");
            assert!(line.contains(&cited), "{of}::{method}");
            assert_eq!(*at == "with_at ", method.starts_with("with_"), "{of}::{method}");
            methods.push((of.clone(), method.clone()));
        }
    }
    assert_eq!(methods, wanted);
    compared("methods of fields", methods.len(), 175);
}

/// The codes of the settings' choices and of the variants are those of the published enums.
#[test]
fn codes_are_the_published_ones() {
    let mut wanted = Vec::new();
    let published = text("rust/oracle/src/config.rs") + &text("rust/oracle/src/lib.rs");
    for part in published.split("pub enum ").skip(1) {
        let body = part.split_once('{').unwrap().1.split_once('}').unwrap().0;
        let lines =
            body.lines().map(str::trim).filter(|line| !line.is_empty() && !line.starts_with("//"));
        for (place, line) in lines.enumerate() {
            let line = line.trim_end_matches(',');
            let (name, code) = line
                .split_once(" = ")
                .map_or((line, place as u8), |(name, code)| (name, code.parse().unwrap()));
            wanted.push((name.to_string(), code));
        }
    }
    let mut listed = Vec::new();
    for line in text("crates/config/specs/Codes.antt").lines() {
        let words: Vec<_> = line.split_whitespace().collect();
        if let [of, name, "=", code] = words[..] {
            assert!(of.ends_with("_code"), "{line}");
            listed.push((name.trim_matches(['«', '»']).to_string(), code.parse::<u8>().unwrap()));
        }
    }
    assert_eq!(listed, wanted);
    compared("codes of settings and variants", listed.len(), 15 + 3);
}

/// The macro gave every type the fields of the text, and the comparison leaves none out.
#[test]
fn accessors_are_the_published_fields() {
    let types: Vec<_> = GROUPS.iter().flat_map(|(_, types)| types.iter()).collect();
    let published = published_types();
    assert_eq!(types.len(), published.len());

    let mut cases = 0;
    for ((name, accessors), (wanted, fields)) in types.into_iter().zip(published) {
        assert_eq!(*name, wanted);
        let mut accessors = accessors.iter();
        let mut shift = 0;
        for field in fields {
            let (low, size) = (1 << shift, 1 << field.width);
            shift += field.width;
            if field.name == PADDING {
                continue;
            }
            let (name, read, with) = accessors.next().unwrap();
            assert_eq!(*name, field.name);
            assert_eq!(with.is_none(), field.read_only, "{name}");
            for byte in 0..=255_u8 {
                let value = u32::from(byte) / low % size;
                assert_eq!(u32::from(read(byte)), value, "{name}");
                for new in 0..=255_u8 {
                    let replaced = u32::from(byte) - value * low + u32::from(new) % size * low;
                    let made = with.map_or(replaced, |with| with(byte, new).into());
                    assert_eq!(made, replaced, "{name}");
                }
            }
            cases += 1;
        }
        assert!(accessors.next().is_none(), "{name}");
    }
    compared("named fields", cases, 89);

    let names = ADDRESSES.iter().map(|(name, address)| (name.to_string(), *address));
    assert_eq!(names.collect::<Vec<_>>(), published_addresses());
}
