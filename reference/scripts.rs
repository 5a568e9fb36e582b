//! The texts of the program `scripts`: edges with a label, and drawn ones; what it reads, and what it has to print.
use crate::drafts::{fold, put};
use crate::generator::Rng;
use crate::texts;
use crate::typed::read;

/// The numbers of the program's table, and what stands in it before.
const ROOM: usize = 8010;
const BEFORE: u64 = 77;

/// Every form of Table II that document 01 has a code for.
const FORMS: &str = "\
L IFANY (W,E,X)(W,E,9)(W,EO,17)(W,EH,A.9) (W,N,X)(W,N,9)(W,NO,17)(W,NH,A.9) L
 IFANY (W,G,X)(W,G,9)(W,GO,17)(W,GH,A.9) (W,L,X)(W,L,9)(W,LO,17)(W,LH,A.9) (W,P,X) L
 IFANY (W,O,X)(W,O,17)(W,OD,9)(W,OH,A.9) (W,Z,X)(W,Z,17)(W,ZD,9)(W,ZH,A.9) L
 THEN (8,SS,4,23) (1,DA,2,3)(W,DA,X,Y)(1,DP,2,3)(1,DB,2,3) (W,GT,4)(W,GT,X)(W,GT,4,WA)(W,GT,X,WA) (W,FR,0)(W,FR,WA)
 THEN (W,E,X)(W,E,9)(W,EO,17)(W,EH,A.9) (W,DP,X) (W,IC,X) (W,P,X)(WA,BC)
 THEN (W,A,X)(W,A,9)(W,AO,17)(W,AH,A.9) (W,S,X)(W,S,9)(W,SO,17)(W,SH,A.9)
 THEN (W,M,X)(W,M,9)(W,MO,17)(W,MH,A.9) (W,V,X)(W,V,9)(W,VO,17)(W,VH,A.9)
 THEN (W,O,X)(W,O,17)(W,OD,9)(W,OH,A.9) (W,N,X)(W,N,17)(W,ND,9)(W,NH,A.9)
 THEN (W,X,X)(W,X,17)(W,XD,9)(W,XH,A.9) (W,C,X)(W,C,17)(W,CD,9)(W,CH,A.9)
 THEN (W,L,X)(W,L,9)(W,R,X)(W,R,9) (W,LO,X)(W,LZ,X)(W,RO,X)(W,RZ,X) (W,OS,X)(W,ZS,X)
 THEN (W,IN,X)(W,IN,6) (X,PR,X)(9,PR,17)(9,PRH,A.9) (W,BZ,X)(W,ZB,X)(W,BD,X)(W,BO,X)(W,DB,X)(W,OB,X)
 THEN (S,FC,X)(R,FC,X) (S,FD,9)(R,FD,A) (DO,L) DONE
";

/// One operation in a line of its own.
fn operation(label: &str, operation: &str) -> (String, Vec<u8>, usize) {
    edge(label, &format!(" THEN ({operation})\n"))
}
fn edge(label: &str, text: &str) -> (String, Vec<u8>, usize) {
    lent(label, text, 8000)
}
fn lent(label: &str, text: &str, room: usize) -> (String, Vec<u8>, usize) {
    (label.to_string(), text.as_bytes().to_vec(), room)
}

/// The labelled texts, each with how many numbers are lent.
fn edges() -> Vec<(String, Vec<u8>, usize)> {
    let mut all = vec![
        edge("an empty text", ""),
        edge("an empty line", "\n"),
        edge("blanks alone", "   \n"),
        edge("the least line", " THEN DONE\n"),
        edge("no byte 10", " THEN DONE"),
        edge("no byte 10 after the second line", " THEN DONE\n THEN DONE"),
        edge("an empty line after a line", " THEN DONE\n\n"),
        edge("a blank at the end", " THEN DONE \n"),
        edge("a tab before the mode", "\tTHEN DONE\n"),
        edge("a carriage return", " THEN DONE\r\n"),
        edge("small letters", " then done\n"),
        edge("a mode word in column one", "THEN DONE\n"),
        edge("a parenthesis in column one", "(W,E,1) THEN DONE\n"),
        edge("a label of six", "ABCDE6 THEN ABCDE6\n"),
        edge("a label of seven", "ABCDEF7 THEN DONE\n"),
        edge("a label of a digit", "1 THEN 1\n"),
        edge("a label with a period", "A.B THEN DONE\n"),
        edge("a label after a blank", " L THEN DONE\n"),
        edge("a label alone", "L\n"),
        edge("a mode word as a label", "IFALL THEN DONE\n"),
        edge("DONE as a label", "DONE THEN DONE\n"),
        edge("THEN as a label", "THEN THEN DONE\n"),
        edge("IF, NOT and FAIL as labels", "IF THEN NOT\nNOT THEN FAIL\nFAIL THEN IF\n"),
        edge("IF as a mode", " IF (W,E,1) DONE\n"),
        edge("FAIL where it is no label", " THEN FAIL\n"),
        edge("a go-to that is a mode word", " THEN IFANY\n"),
        edge("a go-to with a period", " THEN A.B\n"),
        edge("a go-to of seven", " THEN ABCDEFG\n"),
        edge("two go-tos", "L THEN L L\n"),
        edge("an operation after the go-to", "L THEN L (W,E,1)\n"),
        edge("no blank after the label", "LTHEN DONE\n"),
        edge("no blank before the go-to", " THENDONE\n"),
        edge("no blanks at parentheses", "L IFANY(W,E,1)(W,E,2)THEN(X,E,1)(X,E,2)L\n"),
        edge("blanks at parentheses", "L   IFANY  (W,E,1)   (W,E,2)  THEN  (X,E,1)  (X,E,2)   L\n"),
        edge("a blank after a comma", " THEN (W, E,1)\n"),
        edge("a blank before a comma", " THEN (W ,E,1)\n"),
        edge("a blank after an opening parenthesis", " THEN ( W,E,1)\n"),
        edge("a blank before a closing parenthesis", " THEN (W,E,1 )\n"),
        edge("a parenthesis not closed", " THEN (W,E,1\n"),
        edge("a parenthesis not opened", " THEN W,E,1)\n"),
        edge("a parenthesis closed on the next line", " THEN (W,E,\n1)\n"),
        edge("a parenthesis closed twice", " THEN (W,E,1))\n"),
        edge("a parenthesis in another", " THEN ((W,E,1))\n"),
        edge("no arguments", " THEN ()\n"),
        edge("a comma between parentheses", " THEN (W,E,1),(X,E,1)\n"),
        edge("THEN alone", " THEN\n"),
        edge("two THENs", " THEN THEN (W,E,1)\n"),
        edge("a test on a THEN line", " THEN (W,G,1) DONE\n"),
        edge("tests alone", " IFALL (W,E,1)\n"),
        edge("tests and a go-to", "L IFALL (W,E,1) L\n"),
        edge("no tests", " IFALL THEN (W,E,1)\n"),
        edge("no tests and a go-to", " IFALL DONE\n"),
        edge("THEN without operations", "L IFALL (W,E,1) THEN L\n"),
        edge("THEN at the end", " IFALL (W,E,1) THEN\n"),
        edge("THEN twice after tests", " IFALL (W,E,1) THEN THEN (W,E,1)\n"),
        edge("a second mode", " IFALL (W,E,1) IFANY (W,E,1) DONE\n"),
        edge("an operation as a test", " IFANY (W,A,1) DONE\n"),
        edge("a test of two arguments", " IFANY (W,A) DONE\n"),
        edge("mode words as Hollerith literals", " IFALL (W,EH,THEN) THEN (W,EH,DONE) DONE\n"),
        edge("every form", FORMS),
        edge("a line of document 000", "L2 IFNONE (XD,E,Y)(XA,E,0) THEN (XD,E,1)(X,P,XA)L2\n"),
        edge("a label declared again", "L THEN L\nM THEN M\nL THEN M\n"),
        edge("a label declared by a later line", " THEN L\nL THEN DONE\n"),
        edge("a label that is missing", "L THEN L\n THEN M\n"),
        edge("a label that a broken line declares", " THEN L\nL THEN\n"),
        edge("a broken line that declares", "L THEN\n THEN L\n"),
        edge("a line broken after one with a missing label", " THEN M\n THEN\n"),
        edge("a broken line that declares again", "L THEN L\nL THEN M (W\n"),
        edge("a label declared again after a broken one", "L THEN DONE\n THEN\nL THEN DONE\n"),
        edge("a label longer by a character", "L1 THEN L\n"),
        edge("a label shorter by a character", "L THEN L1\n"),
        edge("a label with a zero before it", "1 THEN 01\n"),
        lent("no number lent", " THEN DONE\n", 0),
        lent("row 0 lent", " THEN DONE\n", 10),
        lent("a number too few lent", " THEN DONE\n", 19),
        lent("just enough lent", " THEN DONE\n", 20),
        lent("more than 8,000 lent", " THEN DONE\n", ROOM),
        lent("24 and 25 on a line", " THEN DONE\n THEN M\n", 20),
        lent("25 before 23", " THEN DONE\n THEN DONE\n THEN\n", 29),
        lent("25 before 24", " THEN DONE\n THEN DONE\n THEN M\n", 20),
        lent("23 and no room", " THEN\n", 0),
        lent("an empty text and no room", "", 0),
        lent("a label of a line that has no room", " THEN L\n THEN DONE\nL THEN L\nL THEN L\n", 30),
        edge("799 lines", &" THEN DONE\n".repeat(799)),
        edge("800 lines", &" THEN DONE\n".repeat(800)),
        lent("800 lines, more lent", &" THEN DONE\n".repeat(800), ROOM),
        edge("798 operations", &format!(" THEN {}\n", "(W,E,1)".repeat(798))),
        edge("799 operations", &format!(" THEN {}\n", "(W,E,1)".repeat(799))),
        edge("797 tests", &format!(" IFALL {}THEN (W,E,1)\n", "(W,E,1)".repeat(797))),
        edge("798 tests", &format!(" IFALL {}THEN (W,E,1)\n", "(W,E,1)".repeat(798))),
        edge("900 lines, the last of them broken", &format!("{} THEN\n", " THEN DONE\n".repeat(899))),
    ];
    let many: String = (0..900).map(|i| format!("L{i} THEN L899\n")).collect();
    all.push(edge("900 labels", &many));
    all.push(("a byte above 127".to_string(), b" THEN (W,EH,\xc1)\n".to_vec(), 8000));
    all.push(("a byte 0".to_string(), b" THEN DONE\0\n".to_vec(), 8000));
    all.extend(OPERATIONS.map(|(label, text)| operation(label, text)));
    all
}
const OPERATIONS: [(&str, &str); 52] = [
    ("an empty argument", "W,,1"),
    ("an empty last argument", "W,E,"),
    ("an empty first argument", ",E,1"),
    ("one argument", "W"),
    ("a fifth argument", "W,GT,4,X,Y"),
    ("an empty rest of an abbreviation", "W,"),
    ("an abbreviation to six names", "W,ABCDE"),
    ("an abbreviation to seven names", "W,ABCDEF"),
    ("an abbreviation by digits", "W,09"),
    ("an abbreviation of DO", "DO,A"),
    ("an abbreviation of a number", "1,A"),
    ("an abbreviation by a period", "W,A."),
    ("six names", "WABCDE,E,1"),
    ("seven names", "WABCDEF,E,1"),
    ("a digit as a bug", "1A,E,1"),
    ("digits as field names", "W09,E,X12345"),
    ("a number as the affected field", "1,E,W"),
    ("the greatest decimal literal", "W,E,68719476735"),
    ("a decimal literal of 2^36", "W,E,68719476736"),
    ("a decimal literal of 2^64 and 1", "W,E,18446744073709551617"),
    ("the greatest octal literal", "W,O,777777777777"),
    ("an octal literal of 2^36", "W,O,1000000000000"),
    ("zeros before a literal", "W,E,00000000000000000000000000068719476735"),
    ("8 as an octal digit", "W,O,8"),
    ("8 after EO", "W,EO,8"),
    ("8 after OD", "W,OD,8"),
    ("a field after OD", "W,OD,X"),
    ("a field after EO", "W,EO,X"),
    ("a sign", "W,E,-1"),
    ("a Hollerith literal of six", "W,EH,ABC.89"),
    ("a Hollerith literal of seven", "W,EH,ABC.890"),
    ("a Hollerith literal with a dash", "W,EH,A-B"),
    ("a free by 0", "W,FR,0"),
    ("a free by 00", "W,FR,00"),
    ("a free by 1", "W,FR,1"),
    ("DP of three", "W,DP,X"),
    ("DP of three, a number first", "0,DP,X"),
    ("DP of four", "W,DP,0,35"),
    ("DB of three", "W,DB,X"),
    ("DB of four", "W,DB,0,35"),
    ("a definition of two names", "0,DAB,0,35"),
    ("a definition of no name", "0,D,0,35"),
    ("a definition of three arguments", "0,DA,35"),
    ("a set-up by fields", "W,SS,8,23"),
    ("a set-up of three arguments", "8,SS,8"),
    ("a shift of four arguments", "W,L,6,X"),
    ("a save of two names", "S,FD,AB"),
    ("a save of a number", "S,FC,1"),
    ("a DO of DONE", "DO,DONE"),
    ("a DO of a mode word", "DO,THEN"),
    ("a DO of STATE", "DO,STATE"),
    ("a failure exit", "A,DO,B"),
];

/// All texts: the labelled ones, and drawn ones of at most 4,096 bytes without a label.
fn all(seed: u64, drawn: u64) -> Vec<(String, Vec<u8>, usize)> {
    let mut rng = Rng(seed);
    let mut short = || loop {
        let text = texts::text(&mut rng);
        if text.len() <= 4096 {
            return (String::new(), text.clone(), texts::room(&mut rng, 36, &text));
        }
    };
    let drawn: Vec<_> = (0..drawn).map(|_| short()).collect();
    edges().into_iter().chain(drawn).collect()
}

/// What the program reads: numbers as those of `drafts`, and bytes.
pub fn stdin(seed: u64, drawn: u64) -> Vec<u8> {
    let texts = all(seed, drawn);
    let mut bytes = vec![];
    put(&mut bytes, texts.len() as u64);
    for (label, text, room) in texts {
        put(&mut bytes, room as u64);
        for part in [&text[..], label.as_bytes()] {
            put(&mut bytes, part.len() as u64);
            bytes.extend(part)
        }
    }
    bytes
}

/// What it has to print.
pub fn stdout(seed: u64, drawn: u64) -> String {
    let (mut printed, mut counts, mut sum) = (String::new(), [0; 4], 0);
    for (label, text, room) in all(seed, drawn) {
        let found = read(36, &text, room);
        let (kind, told, words) = match &found {
            Ok(rows) => (0, rows.len() as u64 / 10, format!("rows {}", rows.len() / 10)),
            Err((refusal, line)) => (*refusal as usize - 22, fold(*refusal, *line), format!("{refusal}, line {line}")),
        };
        let mut table = found.unwrap_or_default();
        table.resize(ROOM, BEFORE);
        counts[kind] += 1;
        sum = table.into_iter().fold(fold(sum, told), fold);
        if !label.is_empty() {
            printed += &format!("{label}: {words}\n")
        }
    }
    printed += &format!("all answers: {}\n", sum % (1 << 63));
    for (name, count) in ["tables", "23", "24", "25"].iter().zip(counts) {
        printed += &format!("{name}: {count}\n")
    }
    printed
}
