//! What is wrong with an agreement that can be read: each mistake with its place and its reason, in the text's own
//! names. The verdict is the proved check's.

use tools::check::{check, Refused, Verdict};

fn refused(text: &str) -> Refused {
    match check(text.as_bytes()) {
        Ok(_) => panic!("accepted: {text}"),
        Err(refused) => refused,
    }
}

/// The faults with their refusals; the lowest must be the library's.
fn faults(text: &str) -> Vec<String> {
    let refused = refused(text);
    let lowest = refused.faults.iter().filter_map(|fault| fault.refusal).min();
    let Verdict::Refused(refusal) = refused.verdict else { panic!("{}", refused.told("text", text.as_bytes())) };
    assert_eq!(Some(refusal.number()), lowest);
    let told = |fault: &tools::fault::Fault| format!("{fault} ({})", fault.refusal.unwrap_or(0));
    refused.faults.iter().map(told).collect()
}

/// The faults of a main clause on line 4, which begins at column 1.
fn main_faults(main: &str) -> Vec<String> {
    faults(&format!(
        "parties Buyer, Seller\nreadings Paid(payer: party, coins: number, late: truth) Sent()\n\
         letrec owe(price: number)<who> declares Seller = <who> Sent() due within price in\n{main}\nstarting 0"
    ))
}

/// The faults of templates that begin on line 2.
fn template_faults(templates: &str) -> Vec<String> {
    faults(&format!("parties A, B readings N(n: number) E() letrec\n{templates}\nin fulfilment starting 0"))
}

#[test]
fn conditions_and_times() {
    assert_eq!(
        main_faults("<Buyer> Paid(p, c, l) where c due within 5"),
        ["4:29: the condition after `where` must be a truth, and `c` is a number (3)"]
    );
    assert_eq!(
        main_faults("if 1 + 2 then owe(5)<Seller>"),
        ["4:4: the condition of `if` must be a truth, and `1 + 2` is a number (3)"]
    );
    assert_eq!(
        main_faults("<Buyer> Sent() due within true"),
        ["4:27: the time after `within` must be a number, and `true` is a truth (3)"]
    );
    assert_eq!(
        main_faults("<Buyer> Sent() due within 5 after (Seller)"),
        ["4:35: the time after `after` must be a number, and `(Seller)` is a party (3)"]
    );
}

#[test]
fn operators() {
    let main = |condition: &str| main_faults(&format!("<Buyer> Paid(p, c, l) where {condition} due within 5"));
    assert_eq!(main("c < l"), ["4:33: the right side of `<` must be a number, and `l` is a truth (3)"]);
    assert_eq!(main("p + 1 >= 5"), ["4:29: the left side of `+` must be a number, and `p` is a party (3)"]);
    assert_eq!(main("c > 5 && c"), ["4:38: the right side of `&&` must be a truth, and `c` is a number (3)"]);
    assert_eq!(main("(c - 5) || l"), ["4:29: the left side of `||` must be a truth, and `(c - 5)` is a number (3)"]);
    assert_eq!(main("!c"), ["4:30: what follows `!` must be a truth, and `c` is a number (3)"]);
    assert_eq!(main("p = 0"), ["4:29: `=` compares two of one type, and `p` is a party, `0` is a number (3)"]);
    assert_eq!(
        main("l != c\n* 2"),
        ["4:29: `!=` compares two of one type, and `l` is a truth, `c * 2` is a number (3)"]
    );
    assert_eq!(
        main("p <= Seller"),
        [
            "4:29: the left side of `<=` must be a number, and `p` is a party (3)",
            "4:34: the right side of `<=` must be a number, and `Seller` is a party (3)",
        ]
    );
}

#[test]
fn values_given() {
    assert_eq!(
        main_faults("owe(Seller)<Buyer>"),
        ["4:5: `price` of `owe` must be a number, and `Seller` is a party (3)"]
    );
    assert_eq!(
        main_faults("owe(1, 2)<Buyer> and owe(true)"),
        [
            "4:1: `owe` has 1 value, 2 given here (2)",
            "4:22: `owe` has 1 party parameter, 0 given here (2)",
            "4:26: `price` of `owe` must be a number, and `true` is a truth (3)",
        ]
    );
    assert_eq!(main_faults("owe(1000000001)<Buyer>"), ["4:5: a number beyond plus or minus 1,000,000,000 (3)"]);
}

#[test]
fn parties_that_meet() {
    assert_eq!(
        main_faults("<Buyer> Sent() due within 5 or <Seller> Sent() due within 5"),
        ["4:29: `Buyer` (4:2) and `Seller` (4:33) meet in this `or`, whose two sides together may have one party (3)"]
    );
    assert_eq!(
        main_faults("<Buyer> Sent() due within 5 or owe(5)<Buyer>"),
        ["4:29: `Buyer` (4:2) and `Seller` (declared by `owe`, 4:32) meet in this `or`, whose two sides together \
             may have one party (3)"]
    );
    // An `or` that is a side of another is told once; a party more is a meeting of its own.
    let owed = |party: &str| format!("<{party}> E() due within 1");
    let (p, a, b) = (owed("p"), owed("A"), owed("B"));
    let rule = "meet in this `or`, whose two sides together may have one party (3)";
    assert_eq!(
        template_faults(&format!("f()<p> declares A, B = {p}\nor {a}\nor {p}\nor ({b} and fulfilment)")),
        [
            format!("3:1: `p` (a party parameter, 2:25) and `A` (3:5) {rule}"),
            format!("5:1: `p` (a party parameter, 2:25), `A` (3:5) and `B` (5:6) {rule}"),
        ]
    );
}

#[test]
fn parties_that_are_not_declared() {
    assert_eq!(
        template_faults("f() = <A> E() due within 5 then <A> E() due within 5"),
        ["2:8: `f` does not declare `A`: `declares A` would do (3)"]
    );
    assert_eq!(
        template_faults("f() declares A = <A> E() due within 5\ng() declares B = <B> E() due within 5 then f()"),
        ["3:44: `g` does not declare `A`, whom `f` declares: `declares B, A` would do (3)"]
    );
}

#[test]
fn guards() {
    let rule = "a template names itself or a later one only inside a `then`";
    let later = ", a later template, outside every `then`";
    let none = "and no order of these would do";
    assert_eq!(template_faults("f() = f()"), [format!("2:7: `f` names itself outside every `then`: {rule} (4)")]);
    assert_eq!(
        template_faults("f() = if E() due within 5 then f() else g()\nh() = fulfilment\ng() = h()"),
        [format!("2:41: `f` names `g`{later}: {rule}; the order `h`, `g`, `f` would do (4)")]
    );
    assert_eq!(
        template_faults("f() = fulfilment and g()\ng() = h()\nh() = f()"),
        [
            format!("2:22: `f` names `g`{later}, and `g` names `h`, `h` names `f`: {rule}, {none} (4)"),
            format!("3:7: `g` names `h`{later}, and `h` names `f`, `f` names `g`: {rule}, {none} (4)"),
        ]
    );
}

/// So many `fulfilment` joined in balance: a width of twice as many less one.
fn balanced(leaves: usize) -> String {
    match leaves {
        1 => "fulfilment".to_string(),
        _ => format!("({} and {})", balanced(leaves / 2), balanced(leaves - leaves / 2)),
    }
}

#[test]
fn widths() {
    let how = "each clause outside a further `then` counts 1, an instance its template's body too";
    assert_eq!(
        main_faults(&balanced(129)),
        [format!("4:1: the main clause has a width of 257, 1 over the 256 there may be; {how} (5)")]
    );
    assert_eq!(
        main_faults(&format!("if Sent() due within 5 then {} else fulfilment", balanced(150))),
        [format!("4:4: the `then` of this `Sent` has a width of 299, 43 over the 256 there may be; {how} (5)")]
    );
    assert_eq!(
        template_faults(&format!("f() = {}\ng() = f() and f()\nh() = g() and g() and g()", balanced(60))),
        [format!("4:1: the body of `h` has a width of 728, 472 over the 256 there may be; {how} (5)")]
    );
    // Who names it is not too wide for it alone.
    assert_eq!(
        template_faults(&format!("f() = {}\ng() = f()", balanced(200))),
        [format!("2:1: the body of `f` has a width of 399, 143 over the 256 there may be; {how} (5)")]
    );
}

#[test]
fn sight() {
    let waits = (0..9).map(|n| format!("<A> N(n{n}) due within 1 then\n")).collect::<String>();
    assert_eq!(
        faults(&format!("parties A readings N(n: number) in\n{waits}fulfilment starting 0")),
        ["10:5: 18 values would be in sight in the `then` of this `N`, 2 over the 16 there may be: \
             16 from outside, 1 of the reading and the remaining time (3)"]
    );
}

/// Mistakes of all kinds in one run, in the order of the text; those of names are told beside those of types.
#[test]
fn several_mistakes() {
    let text = "\
parties Keeper, Buyer
readings Salinity(level: number)
letrec
  watch() = <Keeper> Salinity(level) where level due within 60 then watch()
  twice() = twice()
in
  watch() or <Buyer> Salinity(l) where !(level < 250) due within 60
starting 100
";
    let refused = refused(text);
    assert_eq!(refused.verdict, Verdict::NoRecord);
    let told = "\
sale.csl:4:14: `watch` does not declare `Keeper`: `declares Keeper` would do (refusal 3)
  4 |   watch() = <Keeper> Salinity(level) where level due within 60 then watch()
    |              ^^^^^^
sale.csl:4:44: the condition after `where` must be a truth, and `level` is a number (refusal 3)
  4 |   watch() = <Keeper> Salinity(level) where level due within 60 then watch()
    |                                            ^^^^^
sale.csl:5:13: `twice` names itself outside every `then`: \
a template names itself or a later one only inside a `then` (refusal 4)
  5 |   twice() = twice()
    |             ^^^^^
sale.csl:7:42: unknown value `level`
  7 |   watch() or <Buyer> Salinity(l) where !(level < 250) due within 60
    |                                          ^^^^^
sale.csl: no record can be written of this text";
    assert_eq!(refused.told("sale.csl", text.as_bytes()), told);
}

#[test]
fn accepted() {
    let Ok(accepted) = check(include_bytes!("watch.csl")) else { panic!("refused") };
    assert_eq!(accepted.told("watch.csl"), "watch.csl: accepted; 260 bytes; it can blame Crew\n");
}
