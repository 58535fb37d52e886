//! The script language: how lines are read and what they print.

use reference::script::run;

fn output(input: &str) -> String {
    let mut output = Vec::new();
    run(input.as_bytes(), &mut output);
    String::from_utf8(output).unwrap()
}

/// Network 1, unit 5, step 80, capable, lamp green when on and red when off,
/// top single to 10 percent, its packet to link 9 with the percent.
fn image() -> String {
    let mut image = [0; 256];
    image[..4].copy_from_slice(&[1, 5, 0x12, 0x34]);
    image[0x70..0x75].copy_from_slice(&[9, 14, 15, 15, 15]);
    image[0x75..0x7A].copy_from_slice(&[9, 14, 15, 15, 15]);
    image[0x7A] = 10;
    image[0x7E] = 10;
    image[0x8B] = 0x09;
    image[0x8D] = 0x10;
    image[0xF9] = 40;
    image.iter().map(|byte| format!("{byte:02x}")).collect()
}

fn started(rest: &str) -> String {
    let all = output(&format!("i {}\n{rest}", image()));
    all.strip_prefix("i 0 80 80 red normal\n")
        .unwrap()
        .to_string()
}

#[test]
fn no_switch() {
    let expected = "p none\nr none\nt none\nk none\nx none\nd none\n";
    assert_eq!(output("p 9\nr 0\nt 0\nt 5\nk -\nx\nd\n"), expected);
    assert_eq!(output("i 00\nx\n"), "i 1\nx none\n");
    assert_eq!(started("i 00\nx"), "i 1\nx none\n");
    assert_eq!(output("p 256\nq\nb 48\n"), "? 1\n? 2\n");
}

#[test]
fn lines_ends() {
    assert_eq!(output(""), "");
    assert_eq!(output("\n\r\n \t\r\n# x\r\nx\r\nx\r"), "x none\nx none\n");
    assert_eq!(output("x\r\r\n"), "? 1\n");
    assert_eq!(output("\n\n \nx\rx"), "? 4\n");
}

#[test]
fn long_lines() {
    let longest = format!("#{}", "-".repeat(2047));
    assert_eq!(output(&format!("{longest}\nx\n")), "x none\n");
    assert_eq!(output(&format!("{longest}\r\nx\n")), "? 1\nx none\n");
    assert_eq!(output(&" ".repeat(2049)), "? 1\n");
}

#[test]
fn lines_that_do_not_read() {
    let lines = [
        " x",
        "x ",
        "d 1",
        "p",
        "p ",
        "p  1",
        "p +1",
        "p 1 ",
        "p 256",
        "b 4097",
        "t 4294967296",
        "t 99999999999999999999",
        "k",
        "k 0",
        "k 0g",
        "k --",
        "i -",
        "i ",
        "i 0x",
        "X",
        "\t#",
        "k-",
    ];
    for line in lines {
        assert_eq!(output(&format!("{line}\n")), "? 1\n", "{line}");
    }
    assert_eq!(output(&format!("k {}\n", "00".repeat(256))), "k none\n");
    assert_eq!(output(&format!("k {}\n", "00".repeat(257))), "? 1\n");
    assert_eq!(
        output("p 000000000000000000255\nt 04294967295\n"),
        "p none\nt none\n"
    );
}

#[test]
fn packets() {
    let replied = "k 0 1 8 0 80 80 red normal 080001090586283b\n";
    assert_eq!(started("k 070001050930BA\n"), replied);
    assert_eq!(
        started("k 070001050930bb\n"),
        "k 7 0 0 0 80 80 red normal -\n"
    );
    assert_eq!(started("k -\n"), "k 4 0 0 0 80 80 red normal -\n");
    assert_eq!(started("b 47\nk -\n"), "k 2 0 0 0 80 80 red normal -\n");
    let refused = "p 2 0 0 0 80 80 red normal -\np 3 0 0 0 80 80 red normal -\n";
    assert_eq!(started("b 0\np 9\nb 4096\np 9\n"), refused);
}

#[test]
fn runs_of_ticks() {
    assert_eq!(started("t 0\n"), "");
    assert_eq!(
        started("t 59\nt 2\n"),
        "t*59 0 0 0 0 80 80 red normal -\nt*2 0 0 0 0 80 80 black normal -\n"
    );
    assert_eq!(
        started("t 61\n"),
        "t*59 0 0 0 0 80 80 red normal -\nt*2 0 0 0 0 80 80 black normal -\n"
    );
    assert_eq!(
        started("b 47\nt 1000\n"),
        "t*1000 2 0 0 0 80 80 red normal -\n"
    );
}

#[test]
fn two_packets_in_one_tick() {
    let printed = started("p 0\np 1\nt 60\nr 0\nr 1\nt 180\n");
    let last = "t*1 0 2 8 8 20 20 red normal 8800010905860ad9,8800010905860ad9\n";
    assert!(printed.ends_with(last), "{printed}");
}

#[test]
fn equal_packets_in_consecutive_ticks_are_one_run() {
    let printed = started("t 480\np 0\nt 1\np 1\nt 59\nr 0\nt 1\nr 1\nt 180\n");
    let last = "t*2 0 1 8 0 20 20 green normal 8800010905860ad9\n";
    assert!(printed.ends_with(last), "{printed}");
    assert!(!printed.contains("spilt"));
}

#[test]
fn dump() {
    let dump = started("d\n");
    assert_eq!(dump.len(), 2 + 512 + 1);
    assert!(dump.starts_with("d 01051234"));
    assert_eq!(&dump[2 + 2 * 0xFC..][..2], "01");
}
