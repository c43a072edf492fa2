//! Sessions as lines: printed, typed, and every fault of a line.

use swarmbanner::{Queue, Refusal, Session};
use swarmbanner_explain::{lines, Disorder, Fault, Owner, Typed, Wrong};

/// Two machines, two queues; one step of each kind, and one of the empty word. Any 0s and 1s, then any 2s, are inside in control
/// state 1, nothing elsewhere; in control state 0 the word 2 is bad.
const TEXT: &str = "\
machine states 2 start 1
machine states 1 start 0
queue messages 2
queue messages 1
transition machine 0 from 0 to 1 send queue 0: 0 1
transition machine 1 from 0 to 0 receive queue 1: 2
transition machine 0 from 1 to 0 local
transition machine 0 from 1 to 1 send queue 1:
state final 0>0 1>0 2>1
state final 2>1
state 2>3
state final
control 1 root 0
bad control 0 root 2
";

/// The same, spelled by hand.
const FILE: [u8; 58] = [
    2, 2, 1, 1, 0, 2, 2, 1, 4, 0, 0, 1, 1, 0, 2, 0, 1, 1, 0, 0, 2, 1, 1, 2, 0, 1, 0, 0, 0, 1, 1, 1, 1, 0, 4, 1, 3, 0,
    0, 1, 0, 2, 1, 1, 1, 2, 1, 0, 1, 2, 3, 1, 0, 0, 1, 1, 0, 2,
];

fn typed(text: &str) -> Session {
    Typed::parse(text.as_bytes()).unwrap_or_else(|fault| panic!("{fault} in\n{text}")).session
}

fn printed(session: &Session) -> String {
    lines(session).join("\n") + "\n"
}

/// What is told of a text, which is no session.
fn fault(text: &str) -> String {
    match Typed::parse(text.as_bytes()).and_then(|typed| typed.write()) {
        Ok(_) => panic!("it is a session:\n{text}"),
        Err(fault) => fault.to_string(),
    }
}

/// The text with another line in the place of one, counted from 1.
fn with(number: usize, line: &str) -> String {
    let mut lines: Vec<&str> = TEXT.lines().collect();
    lines[number - 1] = line;
    lines.join("\n")
}

/// The fault of the text with another line there.
fn told(number: usize, line: &str) -> String {
    let told = fault(&with(number, line));
    let what = told.strip_prefix(&format!("{number}: "));
    what.unwrap_or_else(|| panic!("it is of line {number}, not: {told}")).to_string()
}

#[test]
fn a_file_as_lines() {
    let session = swarmbanner::read(&FILE).expect("it is a session file");
    let wanted = "\
# 2 machines, 2 control states, 2 queues, 3 messages, 4 transitions, 4 diagram states, 1 bad entry

machine states 2 start 1  # machine 0
machine states 1 start 0  # machine 1

queue messages 2  # queue 0: messages 0 to 1
queue messages 1  # queue 1: message 2

transition machine 0 from 0 to 1 send queue 0: 0 1   # transition 0
transition machine 1 from 0 to 0 receive queue 1: 2  # transition 1
transition machine 0 from 1 to 0 local               # transition 2
transition machine 0 from 1 to 1 send queue 1:       # transition 3

state final 0>0 1>0 2>1  # state 0
state final 2>1          # state 1
state 2>3                # state 2
state final              # state 3

# control 0 has no root: machines in 0 0
control 1 root 0  # machines in 1 0, the start

bad control 0 root 2  # bad entry 0: machines in 0 0
";
    assert_eq!(printed(&session), wanted);
}

#[test]
fn lines_as_a_file() {
    let typed = Typed::parse(TEXT.as_bytes()).expect("it is a session");
    assert_eq!(typed.write().as_deref(), Ok(&FILE[..]));
    assert_eq!(swarmbanner::read(&FILE), Ok(typed.session));
}

/// What waits at the start stands with its queue, and the first line has how much; without, all is as it was.
#[test]
fn what_waits_at_the_start() {
    let text = with(3, "queue messages 2 start: 1 0 1");
    let session = typed(&text);
    assert_eq!((&session.queues()[0].starting[..], session.starting()), (&[1, 0, 1][..], vec![1, 0, 1]));
    let lines = printed(&session);
    assert!(lines.starts_with(
        "# 2 machines, 2 control states, 2 queues, 3 messages, 4 transitions, 4 diagram states, 1 bad entry, 3 messages at the start\n"
    ));
    let both = "\nqueue messages 2 start: 1 0 1  # queue 0: messages 0 to 1\nqueue messages 1               # queue 1: message 2\n";
    assert!(lines.contains(both), "{lines}");
    assert_eq!(typed(&lines), session);
    let mut file = FILE.to_vec();
    file.splice(8..8, [3, 1, 0, 1, 0]);
    file[0] = 6;
    assert_eq!(Typed::parse(text.as_bytes()).and_then(|typed| typed.write()), Ok(file));
    // nothing behind the colon is an empty queue; the lines may come in any order, so queue 0 may name what comes later
    assert_eq!(typed(&with(4, "queue messages 1 start:")), typed(TEXT));
    assert_eq!(typed(&with(4, "queue messages 1 start : 2 2 # two")).queues()[1].starting, [2, 2]);
    assert_eq!(typed(&with(4, &format!("queue messages 1 start:{}", " 2".repeat(8)))).starting(), [2; 8]);
}

#[test]
fn starts_that_are_wrong() {
    assert_eq!(told(3, "queue messages 2 start 0"), "0 stands where \":\" is wanted");
    assert_eq!(told(3, "queue messages 2 start"), "the line ends where \":\" is wanted");
    assert_eq!(told(3, "queue messages 2 : 0"), ": stands where the line is to end");
    assert_eq!(told(3, "queue messages 2 starts: 0"), "starts stands where the line is to end");
    assert_eq!(told(3, "queue messages 2 start: x"), "x stands where a number is wanted: a message of the start");
    assert_eq!(told(3, "queue messages 2 start: 0 > 1"), "> stands where a number is wanted: a message of the start");
    assert_eq!(told(3, "queue messages 2 start: 1 3"), "a message of the start is 3; it can be 0 to 2");
    assert_eq!(told(3, "queue messages 2 start: 2"), "message 2 is one of queue 1; queue 0 has messages 0 to 1");
    assert_eq!(told(4, "queue messages 1 start: 2 0"), "message 0 is one of queue 0; queue 1 has message 2");
    let long = told(3, &format!("queue messages 2 start:{}", " 1".repeat(9)));
    assert_eq!(long, "the queue starts with 9 messages; it can start with 0 to 8");
    assert_eq!(
        told(3, &format!("queue messages 2 start:{}", " 9".repeat(9))),
        long,
        "the length comes first, as in a file"
    );
    // all queues before what waits in them, and that before the transitions
    let two = with(3, "queue messages 2 start: 3").replace("queue messages 1", "queue messages 33");
    assert!(fault(&two).starts_with("4: the number of messages is 33"), "{}", fault(&two));
    let two = with(3, "queue messages 2 start: 3").replace("send queue 1:", "send queue 2:");
    assert!(fault(&two).starts_with("3: a message of the start is 3"), "{}", fault(&two));
}

#[test]
fn a_part_that_is_empty_and_lines_that_are_long() {
    let session = typed("machine states 1 start 0\nqueue messages 32\nstate\nstate final\n");
    let text = printed(&session);
    assert!(
        text.ends_with(
            "\nqueue messages 32  # queue 0: messages 0 to 31\n\nstate        # state 0\nstate final  # state 1\n\n\
                            # control 0 has no root: machines in 0, the start\n"
        ),
        "{text}"
    );
    let mut session = session;
    let [none, all] = [0, 1].map(|number| session.state(number).expect("the pool has two states"));
    for message in 0..32 {
        session.set_arc(none, message, all).expect("there is such a message");
    }
    let text = printed(&session);
    assert!(
        text.contains(" 30>1 31>1  # state 0\nstate final  # state 1\n"),
        "comments stay near the short lines: {text}"
    );
    assert_eq!(typed(&text), session);
}

#[test]
fn white_space_comments_and_numbers() {
    let free = "# a session\r\n\r\n\tmachine  states 002 start 1\r\nmachine states 1 start 0# the standby\nqueue messages 2 # \u{e9}\n\
        queue messages 1\x0c\n transition machine 0 from 0 to 1 send queue 0:0 1\n\
        transition machine 1 from 0 to 0 receive queue 1 : 2\ntransition machine 0 from 1 to 0 local #\n\
        transition machine 0 from 1 to 1 send queue 1:\n   \nstate final 2 > 1 1> 0 0 >0\nstate final 2>01\nstate 2>3\nstate final\n\
        control 1 root 0\nbad control 0 root 2 # no end of line";
    assert_eq!(typed(free), typed(TEXT));
    let bytes = [TEXT.as_bytes(), b"# \xff\x00\n"].concat();
    assert_eq!(Typed::parse(&bytes).map(|typed| typed.session), Ok(typed(TEXT)), "a comment has any bytes");
}

/// Lines of a kind keep their order, the kinds come as they like.
#[test]
fn lines_in_another_order() {
    let session = typed(TEXT);
    let backwards: Vec<&str> = ["bad", "control", "state", "transition", "queue", "machine"]
        .iter()
        .flat_map(|kind| TEXT.lines().filter(move |line| line.split(' ').next() == Some(kind)))
        .collect();
    assert_eq!(backwards.len(), TEXT.lines().count());
    assert_eq!(typed(&backwards.join("\n")), session);
}

#[test]
fn words_that_are_wrong() {
    let begins = "but with machine, queue, transition, state, control or bad";
    assert_eq!(told(3, "queues messages 2"), format!("no line begins with queues, {begins}"));
    assert_eq!(told(3, "Queue messages 2"), format!("no line begins with Queue, {begins}"));
    assert_eq!(told(3, "2"), format!("no line begins with 2, {begins}"));
    assert_eq!(told(3, ": queue"), format!("no line begins with :, {begins}"));
    assert_eq!(told(3, "root 0 is 3"), format!("no line begins with root, {begins}"));
    assert_eq!(told(3, "qu\u{e9}ue\u{0}"), format!("no line begins with qu\\xc3\\xa9ue\\x00, {begins}"));
    assert_eq!(told(3, &"x".repeat(50)), format!("no line begins with {}.. (50 bytes), {begins}", "x".repeat(40)));
    assert_eq!(told(1, "machine"), "the line ends where \"states\" is wanted");
    assert_eq!(told(1, "machine 2 start 1"), "2 stands where \"states\" is wanted");
    assert_eq!(told(1, "machine states 2 # start 1"), "the line ends where \"start\" is wanted");
    assert_eq!(told(1, "machine states 2 begin 1"), "begin stands where \"start\" is wanted");
    assert_eq!(told(3, "queue 2"), "2 stands where \"messages\" is wanted");
    assert_eq!(told(5, "transition 0 from 0 to 1 local"), "0 stands where \"machine\" is wanted");
    assert_eq!(told(5, "transition machine 0 to 1 local"), "to stands where \"from\" is wanted");
    assert_eq!(told(5, "transition machine 0 from 0 1 local"), "1 stands where \"to\" is wanted");
    let kinds = "where \"local\", \"send\" or \"receive\" is wanted";
    assert_eq!(told(5, "transition machine 0 from 0 to 1"), format!("the line ends {kinds}"));
    assert_eq!(told(5, "transition machine 0 from 0 to 1 sends queue 0:"), format!("sends stands {kinds}"));
    assert_eq!(told(5, "transition machine 0 from 0 to 1 send 0: 1"), "0 stands where \"queue\" is wanted");
    assert_eq!(told(5, "transition machine 0 from 0 to 1 send queue 0"), "the line ends where \":\" is wanted");
    assert_eq!(told(5, "transition machine 0 from 0 to 1 receive queue 0 1"), "1 stands where \":\" is wanted");
    assert_eq!(told(9, "state final 0"), "the line ends where \">\" is wanted");
    assert_eq!(told(9, "state final 0>0 1 0"), "0 stands where \">\" is wanted");
    assert_eq!(told(13, "control 1 is 0"), "is stands where \"root\" is wanted");
    assert_eq!(told(14, "bad 0 root 2"), "0 stands where \"control\" is wanted");
    assert_eq!(told(14, "bad"), "the line ends where \"control\" is wanted");
    for (number, line) in [
        (1, "machine states 2 start 1 1"),
        (3, "queue messages 2 1"),
        (5, "transition machine 0 from 0 to 1 local 1"),
        (13, "control 1 root 0 1"),
        (14, "bad control 0 root 2 1"),
    ] {
        assert_eq!(told(number, line), "1 stands where the line is to end");
    }
}

#[test]
fn numbers_that_are_missing() {
    let step = "transition machine 0 from 0 to 1";
    for (number, line, what) in [
        (1, "machine states", "the number of states"),
        (1, "machine states 2 start", "the starting state"),
        (3, "queue messages", "the number of messages"),
        (5, "transition machine", "the machine"),
        (5, "transition machine 0 from", "the state that it leads from"),
        (5, "transition machine 0 from 0 to", "the state that it leads to"),
        (5, &format!("{step} send queue"), "the queue"),
        (9, "state 0>", "the target of an arc"),
        (13, "control", "the control state"),
        (13, "control 1 root", "the root"),
        (14, "bad control", "the control state"),
        (14, "bad control 0 root", "the root"),
    ] {
        assert_eq!(told(number, line), format!("the line ends where a number is wanted: {what}"));
    }
    for (number, line, found, what) in [
        (1, "machine states two start 1", "two", "the number of states"),
        (1, "machine states 2 start -1", "-1", "the starting state"),
        (3, "queue messages 0x2", "0x2", "the number of messages"),
        (5, "transition machine from 0 to 1 local", "from", "the machine"),
        (5, "transition machine 0 from +0 to 1 local", "+0", "the state that it leads from"),
        (5, "transition machine 0 from 0 to 1.0 local", "1.0", "the state that it leads to"),
        (5, &format!("{step} send queue : 0"), ":", "the queue"),
        (5, &format!("{step} send queue 0: 0,1"), "0,1", "a message of the word"),
        (5, &format!("{step} send queue 0:: 1"), ":", "a message of the word"),
        (9, "state >0", ">", "the message of an arc"),
        (9, "state 0>0 final", "final", "the message of an arc"),
        (9, "state 0>x", "x", "the target of an arc"),
        (13, "control one root 0", "one", "the control state"),
        (13, "control 1 root none", "none", "the root"),
        (14, "bad control 0 root \u{663}", "\\xd9\\xa3", "the root"),
    ] {
        assert_eq!(told(number, line), format!("{found} stands where a number is wanted: {what}"));
    }
}

#[test]
fn numbers_outside_their_range() {
    let step = "transition machine 0 from 0 to 1";
    let of_machine = |range: &str| format!("{range}: these are the states of machine 0");
    for (number, line, what, found, allowed) in [
        (1, "machine states 0 start 0", "the number of states", "0", "1 to 16"),
        (1, "machine states 17 start 0", "the number of states", "17", "1 to 16"),
        (1, "machine states 2 start 2", "the starting state", "2", "0 to 1"),
        (2, "machine states 1 start 1", "the starting state", "1", "0"),
        (3, "queue messages 0", "the number of messages", "0", "1 to 32"),
        (3, "queue messages 33", "the number of messages", "33", "1 to 32"),
        (5, "transition machine 2 from 0 to 0 local", "the machine", "2", "0 to 1"),
        (5, "transition machine 0 from 2 to 0 local", "the state that it leads from", "2", &of_machine("0 to 1")),
        (5, "transition machine 0 from 0 to 2 local", "the state that it leads to", "2", &of_machine("0 to 1")),
        (5, &format!("{step} send queue 2:"), "the queue", "2", "0 to 1"),
        (5, &format!("{step} receive queue 0: 0 3"), "a message of the word", "3", "0 to 2"),
        (9, "state 3>0", "the message of an arc", "3", "0 to 2"),
        (9, "state 0>4", "the target of an arc", "4", "0 to 3"),
        (13, "control 2 root 0", "the control state", "2", "0 to 1"),
        (13, "control 1 root 4", "the root", "4", "0 to 3"),
        (14, "bad control 2 root 0", "the control state", "2", "0 to 1"),
        (14, "bad control 0 root 4", "the root", "4", "0 to 3"),
        (14, "bad control 0 root 16384", "the root", "16384", "0 to 3"),
        (14, "bad control 0 root 99999999999999999999", "the root", "99999999999999999999", "0 to 3"),
        (14, "bad control 0 root 18446744073709551617", "the root", "18446744073709551617", "0 to 3"),
        (14, "bad control 256 root 0", "the control state", "256", "0 to 1"),
        (9, "state 256>0", "the message of an arc", "256", "0 to 2"),
    ] {
        assert_eq!(told(number, line), format!("{what} is {found}; it can be {allowed}"));
    }
}

#[test]
fn products_and_sums() {
    let rest = "queue messages 1\nstate\n";
    let machines = |states: &[usize]| {
        let lines: Vec<String> = states.iter().map(|states| format!("machine states {states} start 0\n")).collect();
        lines.concat() + rest
    };
    assert_eq!(typed(&machines(&[16, 16])).control_states(), 256);
    assert_eq!(typed(&machines(&[4, 4, 4, 4])).control_states(), 256);
    let why = |product: usize| format!("the product of the states is {product} before it and may be 256 with it");
    assert_eq!(fault(&machines(&[16, 16, 2])), format!("3: the number of states is 2; it can be 1: {}", why(256)));
    assert_eq!(fault(&machines(&[9, 9, 17])), format!("3: the number of states is 17; it can be 1 to 3: {}", why(81)));
    assert_eq!(fault(&machines(&[9, 9, 0])), format!("3: the number of states is 0; it can be 1 to 3: {}", why(81)));
    let queues = |messages: &[usize]| {
        let lines: Vec<String> = messages.iter().map(|messages| format!("queue messages {messages}\n")).collect();
        lines.concat() + "machine states 1 start 0\nstate"
    };
    assert_eq!(typed(&queues(&[16, 16])).queues()[1], Queue { messages: 16..32, starting: vec![] });
    let why = |sum: usize| format!("the queues before it have {sum} messages, and all together may have 32");
    assert_eq!(fault(&queues(&[16, 17])), format!("2: the number of messages is 17; it can be 1 to 16: {}", why(16)));
    assert_eq!(
        fault(&queues(&[9, 10, 14])),
        format!("3: the number of messages is 14; it can be 1 to 13: {}", why(19))
    );
    assert_eq!(fault(&queues(&[31, 2])), format!("2: the number of messages is 2; it can be 1: {}", why(31)));
    assert_eq!(fault(&queues(&[32, 1])), format!("2: the number of messages is 1; it can be nothing: {}", why(32)));
}

#[test]
fn words_of_transitions() {
    let step = "transition machine 0 from 0 to 1";
    assert_eq!(
        told(5, &format!("{step} send queue 0: 0 2")),
        "message 2 is one of queue 1; queue 0 has messages 0 to 1"
    );
    assert_eq!(told(5, &format!("{step} receive queue 1: 1")), "message 1 is one of queue 0; queue 1 has message 2");
    typed(&with(5, &format!("{step} send queue 0:{}", " 1".repeat(16))));
    let long = told(5, &format!("{step} send queue 0:{}", " 1".repeat(17)));
    assert_eq!(long, "the word has 17 messages; it can have 0 to 16");
    assert_eq!(
        told(5, &format!("{step} send queue 0:{}", " 9".repeat(17))),
        long,
        "the length comes first, as in a file"
    );
}

#[test]
fn what_is_given_twice() {
    assert_eq!(
        told(9, "state final 0>0 1>0 0>1"),
        "a second arc for message 0; a state has at most one for each message"
    );
    assert_eq!(told(9, "state 2>1 2>1"), "a second arc for message 2; a state has at most one for each message");
    let twice = format!("{TEXT}\ncontrol 1 root 0\n");
    assert_eq!(fault(&twice), "16: control state 1 has a root already, by line 13");
    typed(&format!("{TEXT}bad control 0 root 2\n"));
}

#[test]
fn too_few_and_too_many() {
    let without = |kind: &str| {
        let left: Vec<&str> = TEXT.lines().filter(|line| !line.starts_with(kind)).collect();
        left.join("\n")
    };
    assert_eq!(fault(&without("machine")), "12: the text ends without a machine: a session has 1 to 4");
    assert_eq!(fault(&without("queue")), "12: the text ends without a queue: a session has 1 to 4");
    assert_eq!(fault(&without("state")), "10: the text ends without a state: a session has 1 to 127");
    assert_eq!(fault(""), "1: the text ends without a machine: a session has 1 to 4");
    assert_eq!(fault("\n"), "1: the text ends without a machine: a session has 1 to 4");
    assert_eq!(fault("\n# nothing\n"), "2: the text ends without a machine: a session has 1 to 4");
    // the text has 14 lines
    let more = |line: &str, count: usize| format!("{TEXT}{}", format!("{line}\n").repeat(count));
    for (line, least, most, had, item) in [
        ("machine states 1 start 0", 1, 4, 2, "machine"),
        ("queue messages 1", 1, 4, 2, "queue"),
        ("transition machine 0 from 0 to 0 local", 0, 128, 4, "transition"),
        ("state 0>126", 1, 127, 4, "state"),
        ("bad control 0 root 2", 0, 64, 1, "bad entry"),
    ] {
        typed(&more(line, most - had));
        let range = if least == 0 { format!("up to {most}") } else { format!("{least} to {most}") };
        let wanted = format!("{}: one {item} too many: a session has {range}", 14 + most - had + 1);
        assert_eq!(fault(&more(line, most - had + 1)), wanted);
        assert_eq!(fault(&more(line, most + 9)), wanted, "the first that is too many");
    }
}

/// The words of all lines come first, then machines, queues, transitions, states, roots and bad entries, wherever they stand.
#[test]
fn the_fault_that_is_told() {
    assert_eq!(fault("bad control 9 root 9\nmachine"), "2: the line ends where \"states\" is wanted");
    assert_eq!(fault("machine\nqueue"), "1: the line ends where \"states\" is wanted");
    let two = format!("bad control 9 root 9\n{}", with(9, "state 0>9"));
    assert!(fault(&two).starts_with("10: the target of an arc is 9"), "{}", fault(&two));
}

#[test]
fn words_out_of_queue_order() {
    let back = with(10, "state final 2>1 0>0");
    assert_eq!(
        fault(&back),
        "13: control state 1 has root 0, which accepts 2 0, where message 0 of queue 0 comes after message 2 of queue 1"
    );
    let bad = with(12, "state final 1>0");
    assert_eq!(
        fault(&bad),
        "14: bad entry 0 has root 2, which accepts 2 1, where message 1 of queue 0 comes after message 2 of queue 1"
    );
    let both = format!("bad control 0 root 0\n{back}");
    assert!(fault(&both).starts_with("14: control state 1 has root 0, "), "the map comes first: {}", fault(&both));
    let typed = Typed::parse(bad.as_bytes()).expect("the lines are good");
    let pair = [(2, 1), (1, 0)];
    let disorder = Disorder { owner: Owner::Bad(0), root: 2, word: vec![2, 1], pair };
    assert_eq!(typed.write(), Err(Fault { line: 14, wrong: Wrong::OutOfOrder(disorder) }));
    let unused = bad.replace("bad control 0 root 2", "");
    let typed = Typed::parse(unused.as_bytes()).expect("the lines are good");
    assert!(typed.write().is_ok(), "no root leads there");
}

/// What no text leads to, as no other tables are refused.
#[test]
fn tables_refused_for_another_reason() {
    let fault = Fault { line: 7, wrong: Wrong::Refused(Refusal { number: 16, place: 0 }) };
    assert_eq!(fault.to_string(), "7: refused 16 at 0: no session file is read into these tables");
}
