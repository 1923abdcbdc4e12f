//! Rules of the text program got wrong on purpose, one at a time.

/// Writes the enum and its list from one table of names and texts.
macro_rules! slips {
    ($($name:ident: $text:literal,)*) => {
        /// One wrong rule.
        #[derive(Clone, Copy, Debug, PartialEq, Eq)]
        pub enum LineSlip {
            $($name,)*
        }
        /// Every wrong rule, with what is wrong about it.
        pub const LINE_SLIPS: [(LineSlip, &str); [$($text),*].len()] = [$((LineSlip::$name, $text)),*];
    };
}

slips! {
    // The table behind the lines.
    OtherSettings: "the table has K 1",
    StartsWithDefault: "the table starts with a default of hop 0",
    TableForgotten: "the table is cleared before each line",
    OddPasses: "an odd prefix is added, not refused as 11",
    // Where lines begin and end.
    LastLineLost: "a last line without byte 10 gets no answer",
    FurtherLine: "a further empty line follows a last byte 10",
    EmptyInputLine: "an empty input has one empty line",
    EmptyLineSkipped: "an empty line gets no answer",
    ReturnDropped: "a byte 13 at the end of a line is dropped",
    ReturnEndsLine: "byte 13 ends a line too",
    LongLineSkipped: "a line above 64 bytes gets no answer",
    LongLineSplit: "a line above 64 bytes is answered in pieces of 64",
    // Words.
    SpacesMany: "several spaces part words",
    SpaceLeading: "a space at the start passes",
    SpaceTrailing: "a space at the end passes",
    TabParts: "a tab parts words",
    AnyCase: "capital letters pass in the first word",
    WordsLeftOver: "words after the last one needed are ignored",
    HopLeftOut: "an add without a hop has hop 0",
    MoveAdds: "move adds",
    // Addresses and prefixes.
    OctetsReversed: "the first octet is the lowest",
    OctetTo254: "octet 255 is unreadable",
    OctetPast255: "octets above 255 are read modulo 256",
    OctetLeftOut: "fewer than four octets pass",
    OctetsFive: "a fifth octet is ignored",
    FindWithLength: "find takes a prefix and ignores its length",
    LengthLeftOut: "a prefix without a length has length 32",
    LengthTo32: "a length of 33 to 99 is unreadable",
    LengthOneDigit: "a length of two digits is unreadable",
    LengthThreeDigits: "a length of three digits is readable",
    // Numbers.
    ZeroLeadingOctet: "an octet may start with 0",
    ZeroLeadingLength: "a length may start with 0",
    ZeroLeadingHop: "a hop may start with 0",
    ZeroAloneBad: "a 0 alone is unreadable",
    EmptyIsZero: "a number without digits is 0",
    PlusSign: "a plus before a number passes",
    HopTo16Bits: "a hop above 65,535 is unreadable",
    HopTo31Bits: "a hop of 2^31 or more is unreadable",
    HopPast32Bits: "a hop above 32 bits is refused, not unreadable",
    HopWraps: "a hop above 32 bits is read modulo 2^32",
    // What is written.
    HeaderFirst: "a header line goes first",
    LastByteMissing: "the last answer does not end in byte 10",
    UnreadableSilent: "an unreadable line writes nothing",
    UnreadableStops: "nothing is answered after an unreadable line",
    RefusedUnreadable: "a refused update writes unreadable",
    RefusedNumberless: "a refusal writes no number",
    RefusedOk: "a refusal writes ok",
    // Differs only for 11.
    RefusedOneDigit: "a refusal writes only the last digit of its number",
    LengthBeforeHop: "find writes the length before the hop",
    ProbesLeftOut: "find writes no probes",
    NoneProbesLeftOut: "none writes no probes",
    NoneAsZeros: "none is written as hop 0, length 0",
    DefaultAsNone: "the default's answer is written as none",
}
