//! Reports.

use super::report;

#[test]
fn reports() {
    for (line, text) in [
        (
            "010008080405010303DF",
            "BUDGET 1894163 LIMIT 2097152 BITS 896 ADMITTED\n",
        ),
        (
            "010008080405010203E0",
            "BUDGET 3006246 LIMIT 2097152 BITS 0 NOT ADMITTED\n",
        ),
        ("", "REFUSED 15\n"),
        ("0400619B", "REFUSED 16\n"),
        ("01050508040501030 3DF", "REFUSED 15\n"),
    ] {
        assert_eq!(report(line.as_bytes()), text);
    }
}
