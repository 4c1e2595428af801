//! Each struct of the header stands in `ffi.rs`, with the same fields, types, sizes and offsets, and `ffi.rs` has no other.

use std::mem::{offset_of, size_of};

use labrador::section_one::PARAMETERS;

use crate::{c, ffi};

/// A type that C has too.
trait InC {
    /// The declaration in C of a name of this type.
    fn declared(name: &str) -> String;
}

impl<T: InC, const N: usize> InC for [T; N] {
    fn declared(name: &str) -> String {
        T::declared(&format!("({name})[{N}]"))
    }
}

macro_rules! in_c {
    ($($rust:ty = $c:ident;)*) => {
        $(impl InC for $rust {
            fn declared(name: &str) -> String {
                format!("{} {name}", stringify!($c))
            }
        })*
    };
}

in_c! {
    u32 = uint32_t;
    u64 = uint64_t;
    i64 = int64_t;
}

struct Field {
    name: &'static str,
    offset: usize,
    size: usize,
    declared: fn(&str) -> String,
}

impl Field {
    /// The last is the field itself, for its type.
    fn new<S, F: InC>(name: &'static str, offset: usize, _: fn(&S) -> &F) -> Field {
        Field { name, offset, size: size_of::<F>(), declared: F::declared }
    }
}

struct Struct {
    name: &'static str,
    /// The name in `ffi.rs`.
    rust: &'static str,
    size: usize,
    fields: Vec<Field>,
}

/// The header's names beside those of `ffi.rs`. A field that is not named is an error of the pattern.
macro_rules! structs {
    ($($c:ident = $rust:ident { $($field:ident)* };)*) => {
        in_c! { $(ffi::$rust = $c;)* }

        fn named() -> Vec<Struct> {
            $(let _ = |ffi::$rust { $($field: _),* }: ffi::$rust| ();)*
            vec![$(Struct {
                name: stringify!($c),
                rust: stringify!($rust),
                size: size_of::<ffi::$rust>(),
                fields: vec![
                    $(Field::new(stringify!($field), offset_of!(ffi::$rust, $field), |s: &ffi::$rust| &s.$field)),*
                ],
            }),*]
        }
    };
}

structs! {
    labrador_element = Element { coeffs };
    labrador_challenge_words = ChallengeWords { words };
    labrador_status = Status { number place };
    labrador_word_answer = WordAnswer { number place value };
    labrador_centre_answer = CentreAnswer { number place value };
    labrador_digits_answer = DigitsAnswer { number place digits left };
    labrador_element_answer = ElementAnswer { number place coeffs };
    labrador_norm_answer = NormAnswer { number place hi lo };
    labrador_answer = Answer { number place };
    labrador_need = Need { number place words };
    labrador_verdict = Verdict { number index first_hi first_lo second_hi second_lo place cells_left };
    labrador_parameters = Parameters { words };
    labrador_load_need = LoadNeed { number place job witness randomness };
    labrador_verdicts = Verdicts { number place verdicts };
    labrador_mistyped_answer = MistypedAnswer { number place entries };
    labrador_range_norms = RangeNorms { meets least_hi least_lo greatest_hi greatest_lo };
    labrador_ranges_answer = RangesAnswer { number place vectors };
}

/// The structs of `ffi.rs`, in the header's order.
fn of_rust() -> Vec<Struct> {
    let mut structs = named();
    // one array in `ffi.rs`
    let parameters = structs.iter_mut().find(|s| s.rust == "Parameters").expect("the parameters");
    let word = size_of::<u32>();
    let field = |(k, name)| Field { name, offset: k * word, size: word, declared: u32::declared };
    parameters.fields = PARAMETERS.iter().map(|p| p.name).enumerate().map(field).collect();
    structs
}

/// The header's structs, each with the names of its fields.
fn of_header() -> Vec<(String, Vec<String>)> {
    let text = c::header();
    let name = |declared: &str| {
        let last = declared.split_whitespace().last().expect("a name");
        last.split('[').next().expect("a name").to_string()
    };
    let one = |part: &str| {
        let (fields, rest) = part.split_once("\n} ").expect("a struct ends");
        (name(rest.split_once(';').expect("a name").0), fields.split_terminator(';').map(name).collect())
    };
    text.split("typedef struct {").skip(1).map(one).collect()
}

#[test]
fn the_crate_has_each_struct_with_its_fields() {
    let ours: Vec<(String, Vec<String>)> =
        of_rust().iter().map(|s| (s.name.into(), s.fields.iter().map(|f| f.name.into()).collect())).collect();
    assert_eq!(ours, of_header());
}

#[test]
fn the_crate_has_no_other_struct() {
    let declared = include_str!("../../src/ffi.rs").split("#[repr(C)]\n").skip(1);
    let name = |behind: &'static str| behind.split_once("pub struct ")?.1.split_once(" {").map(|(name, _)| name);
    let mut declared: Vec<&str> = declared.map(|behind| name(behind).expect("a struct")).collect();
    let mut ours: Vec<&str> = of_rust().iter().map(|s| s.rust).collect();
    declared.sort_unstable();
    ours.sort_unstable();
    assert_eq!(ours, declared);
}

/// A pointer of the type in `ffi.rs` is set to each field: the C compiler refuses another type.
#[test]
fn types_sizes_and_offsets_are_the_headers() {
    let mut statements = String::new();
    let mut expected = String::new();
    for s in of_rust() {
        let name = s.name;
        statements += &format!("{{\nstatic {name} it;\nprintf(\"{name}: %zu\\n\", sizeof it);\n");
        expected += &format!("{name}: {}\n", s.size);
        for Field { name: field, offset, size, declared } in s.fields {
            let pointer = declared(&format!("*{field}"));
            let asked = format!("offsetof({name}, {field}), sizeof *{field}");
            statements += &format!("{pointer} = &it.{field};\nprintf(\"{name}.{field}: %zu, %zu\\n\", {asked});\n");
            expected += &format!("{name}.{field}: {offset}, {size}\n");
        }
        statements += "}\n";
    }
    let printed = c::printed("structs", &statements);
    for (of_c, of_rust) in printed.lines().zip(expected.lines()) {
        assert_eq!(of_c, of_rust);
    }
    assert_eq!(printed, expected);
}
