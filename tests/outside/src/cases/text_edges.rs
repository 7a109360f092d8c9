//! Texts at the edges: a fixed list of short ones, and long ones at each limit of reading.

/// Short texts, most of them one fault each; what each gives is the model's to say.
pub const SHORT_TEXTS: &[&str] = &[
    "",
    " ",
    "\n",
    "\t\r\n ",
    "c",
    "c\n",
    "c p cnf 0 0",
    "cp cnf 0 0\n",
    "c\rp cnf 0 0",
    "c\np cnf 0 0",
    "c c\nc\n p cnf 0 0",
    "comment\n  comment\np cnf 0 0\n",
    "p",
    "p ",
    "pc",
    "P cnf 0 0",
    "q",
    "0",
    "e 1 0",
    "p cnf",
    "p cnf 0",
    "p cnf 0 0",
    "p cnf 0 0 ",
    "p\ncnf\n0\n0\n",
    "p cnf 0 0 0",
    "p cnf 0 0 1",
    "p cnf 0 0 c",
    "p cnf 0 0 c comment\n",
    "p cnf 0 0 ee",
    "p cnf 0 0 -0",
    "p cnf 0 0 e",
    "p cnf 0 0 e 0",
    "p cnf 0 0 e 1",
    "p cnf 0 0 e 1 0",
    "p cnf 0 0 a",
    "p cnf 0 0 a 0",
    "p cnf 1 0 e 1 0",
    "p cnf 1 0 a 1 0",
    "p cnf 1 0 a 1",
    "p cnf 1 0 a 1 0 0",
    "p cnf 1 0 a 1 0 1",
    "p cnf 1 0 a 1 0 x",
    "p cnf 1 0 a 1 0 a",
    "p cnf 1 0 a x",
    "p cnf 1 0 a e",
    "p cnf 1 0 a 1 e",
    "p cnf 1 0 e 1 1 0",
    "p cnf 1 0 e 1 0 e 1 0",
    "p cnf 1 0 e 1 0 a 1 0",
    "p cnf 2 0 e 1 0 e 2 0",
    "p cnf 2 0 e 1 2 0",
    "p cnf 2 0 a 1 0 e 2 0 a 0",
    "p cnf 0 1",
    "p cnf 0 1 0",
    "p cnf 0 1 0 0",
    "p cnf 0 1 0 e",
    "p cnf 0 1 0 c",
    "p cnf 0 1 1",
    "p cnf 0 1 -1",
    "p cnf 0 1 -0",
    "p cnf 0 1 00",
    "p cnf 0 1 +0",
    "p cnf 0 1 e",
    "p cnf 0 2 0 0",
    "p cnf 0 2 0",
    "p cnf 0 2 0 e 1 0",
    "p cnf 0 2 0 a",
    "p cnf 1 1 a 1 0 1 0",
    "p cnf 1 1 e 1 0 1 -1 0",
    "p cnf 1 1 e 1 0 1 1 0",
    "p cnf 1 1 e 1 0 1",
    "p cnf 1 1 e 1 0 -1",
    "p cnf 1 1 e 1 0 -1 0",
    "p cnf 1 1 e 1 0",
    "p cnf 1 1 e 1",
    "p cnf 1 1 e",
    "p cnf 1 1 1 0",
    "p cnf 1 1 -1 0",
    "p cnf 1 1 2 0",
    "p cnf 1 1 e 1 0 2 0",
    "p cnf 2 1 e 1 0 2 0",
    "p cnf 2 1 e 1 0 -2 0",
    "p cnf 2 1 e 1 0 -3 0",
    "p cnf 2 1 e 1 0 1 e 2 0",
    "p cnf 2 2 e 1 0 1 0 e 2 0 2 0",
    "p cnf 2 1 e -1 0",
    "p cnf 2 1 e 01 0",
    "p cnf 2 1 e +1 0",
    "p cnf 2 1 e 1 -0",
    "p cnf 2 1 e 1 00",
    "p cnf 2 1 e 3 0",
    "p cnf 2 1 e 1 1 3 0",
    "p cnf 2 1 e 1 3 1 0",
    "p cnf 2 1 e 1 0 01 0",
    "p cnf 2 1 e 1 0 -01 0",
    "p cnf 2 1 e 1 0 +1 0",
    "p cnf 2 1 e 1 0 - 1 0",
    "p cnf 2 1 e 1 0 1\0 0",
    "p cnf 2 1 e 1 0 1 \u{b} 0",
    "p cnf 2 1 e 1 0 1 c 0",
    "p cnf 2 1 e 1 0 c here\n1 0",
    "p cnf 2 1 c here\ne 1 0 1 0",
    "p c here\ncnf 2 1 e 1 0 1 0",
    "p cnf c\n 1 1",
    "p cnf -1 0",
    "p cnf 0 -1",
    "p cnf -0 0",
    "p cnf 00 0",
    "p cnf 0 00",
    "p cnf 01 0",
    "p cnf +1 0",
    "p cnf 1x 0",
    "p cnf 1024 0",
    "p cnf 1024",
    "p cnf 1023 2048",
    "p cnf 1023 2048 x",
    "p cnf 1024x 0",
    "p cnf 1024 2048",
    "p cnf 1023 0",
    "p cnf 1023 2047",
    "p cnf 1023 0 e 1023 0",
    "p cnf 1023 0 e 1024 0",
    "p cnf 99999999999999999999999 0",
    "p cnf 18446744073709551616 0",
    "p cnf 0 18446744073709551616",
    "p cnf 0 65536",
    "p cnf 65536 0",
    "p cnf 4294967297 1",
    "p cnf 1 4294967297",
    "p cnf 1 1 e 4294967297 0",
    "p cnf 1 1 e 65537 0",
    "p cnf 1 1 e 18446744073709551617 0",
    "p cnf 1 1 e 1 0 18446744073709551617 0",
    "p cnf 1 1 e 1 0 -18446744073709551615 0",
    "p cnf 1 1 e 1 0 65537 0",
    "p cnf 1 1 e 1 0 65536 0",
    "p cnf 1 1 e 1 0 18446744073709551616 0",
    "p dnf 1 1",
    "p cnf1 1 1",
    "pcnf 1 1",
    "p cnf 1 1 q 1 0",
    "p cnf 1 1 A 1 0 1 0",
    "p cnf 2 2 a 1 0 e 2 0 1 2 0 2 1 0",
    "p cnf 2 3 e 2 0 a 1 0 1 2 0 2 0 -1 2 0",
    "p cnf 3 2 e 1 0 a 2 0 e 3 0 2 1 0 3 2 2 0",
    "p cnf 3 4\ne 1 0\na 2 0\ne 3 0\n2 -3 0\n-2 3 0\n-1 3 0\n1 -3 0\n",
];

/// Long texts, with a word on each.
pub fn long_texts() -> Vec<(&'static str, Vec<u8>)> {
    let mut list: Vec<(&'static str, Vec<u8>)> = Vec::new();
    let all: String = (1..=1023).map(|v| format!(" {v}")).collect();

    let every = format!("p cnf 1023 0\ne{all} 0\n");
    list.push(("1,023 variables", every.clone().into_bytes()));
    list.push(("one of 1,023 variables twice", format!("p cnf 1023 0\ne{all} 512 0\n").into_bytes()));
    list.push(("2,047 clauses", clauses_text(2047, 2047).into_bytes()));
    list.push(("2,047 said, 2,046 there", clauses_text(2047, 2046).into_bytes()));
    list.push(("2,047 said, 2,048 there", clauses_text(2047, 2048).into_bytes()));
    list.push(("2,048 said", clauses_text(2048, 2048).into_bytes()));
    list.push(("2,047 equal clauses", format!("p cnf 2 2047 e 1 2 0 {}", "1 -2 0\n".repeat(2047)).into_bytes()));
    list.push(("2,047 empty clauses", format!("p cnf 2 2047 e 1 2 0 {}", "0\n".repeat(2047)).into_bytes()));

    for total in [8190, 8191, 8192, 9000] {
        let (body, count) = literals_text(total);
        let said = |n: usize| format!("p cnf 1023 {n}\ne{all} 0\n");
        list.push(("many literals", format!("{}{body}", said(count)).into_bytes()));
        list.push(("many literals, then clauses that add none", {
            // Equal to the first clause, with both phases, and a clause all of whose literals repeat one: the last adds one.
            let first = body.lines().next().expect("clauses");
            format!("{}{body}{first}\n1 -1 0\n1 1 1 0\n", said(count + 3)).into_bytes()
        }));
        list.push((
            "many literals, then a clause with both phases",
            format!("{}{body}{all} -1 0\n", said(count + 1)).into_bytes(),
        ));
        list.push(("many literals, then a fault", format!("{}{body}{all} x 0\n", said(count + 1)).into_bytes()));
        list.push(("many literals, then the end", format!("{}{body}{all}", said(count + 1)).into_bytes()));
        list.push(("many literals, one clause missing", format!("{}{body}", said(count + 1)).into_bytes()));
        list.push(("many literals, one token more", format!("{}{body}7", said(count)).into_bytes()));
        // Universal at the right end, every variable of the clauses goes.
        let universal = format!("p cnf 1023 {count}\na{all} 0\n{body}");
        list.push(("many literals, all of them universal", universal.into_bytes()));
    }
    list.push(("a clause of 30,000 tokens", format!("p cnf 2 1 e 1 2 0 {}0", "1 ".repeat(30_000)).into_bytes()));
    list.push((
        "a clause of 27,000 tokens with both phases",
        format!("p cnf 2 1 e 1 2 0 {}0", "1 -2 2 ".repeat(9000)).into_bytes(),
    ));
    list.push(("a numeral of 60,000 digits", format!("p cnf 2 1 e 1 2 0 {} 0", "9".repeat(60_000)).into_bytes()));
    list.push(("a numeral of 60,000 zeros", format!("p cnf 2 1 e 1 2 0 {} 0", "0".repeat(60_000)).into_bytes()));
    list.push(("a word of 60,000 bytes", format!("p {} 0", "c".repeat(60_000)).into_bytes()));

    let whole = "p cnf 2 2 a 1 0 e 2 0 1 2 0 -1 -2 0";
    for length in [65_535usize, 65_536, 65_537, 65_538, 70_000] {
        let pad = length - whole.len();
        list.push(("blanks after, at the limit of the text", format!("{whole}{}", " ".repeat(pad)).into_bytes()));
        list.push(("blanks before, at the limit of the text", format!("{}{whole}", "\n".repeat(pad)).into_bytes()));
        list.push(("a comment before, at the limit of the text", format!("c{}\n{whole}", "x".repeat(pad - 2)).into_bytes()));
        list.push(("a comment without end", format!("{}c{}", " ".repeat(whole.len() - 1), "x".repeat(pad)).into_bytes()));
        list.push(("a fault in the last byte", format!("{whole}{}x", " ".repeat(pad - 1)).into_bytes()));
        list.push((
            "short at the limit of the text",
            format!("{}{}", &whole[..whole.len() - 1], " ".repeat(pad + 1)).into_bytes(),
        ));
    }
    list
}

/// `said` in the head, `there` different clauses of two literals after it.
fn clauses_text(said: usize, there: usize) -> String {
    let mut text = format!("p cnf 100 {said}\ne");
    for v in 1..=100 {
        text.push_str(&format!(" {v}"));
    }
    text.push_str(" 0\n");
    let pairs = (1..=100).flat_map(|i| (i + 1..=100).map(move |j| (i, j)));
    for (i, j) in pairs.take(there) {
        text.push_str(&format!("{i} -{j} 0\n"));
    }
    text
}

/// Clauses with `total` literals after tidying, and how many clauses they are. Each has a pattern of signs of its own.
fn literals_text(total: usize) -> (String, usize) {
    let mut text = String::new();
    let mut left = total;
    let mut count = 0;
    while left > 0 {
        let length = left.min(1000);
        for v in 1..=length {
            let minus = v > 3 && v % (count + 2) == 0;
            text.push_str(&format!("{}{} ", if minus { "-" } else { "" }, v));
        }
        text.push_str("0\n");
        left -= length;
        count += 1;
    }
    (text, count)
}
