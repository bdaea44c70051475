//! What the archive numbers, as types: editions, kinds of row, parameters and faults, each with its number and its name.

use std::fmt;

/// An enum whose cases have numbers and names.
macro_rules! numbered {
    ($(#[$about:meta])* $name:ident { $($(#[$case_about:meta])* $case:ident = $number:literal, $text:literal;)+ }) => {
        $(#[$about])*
        #[derive(Clone, Copy, Debug, PartialEq, Eq, PartialOrd, Ord, Hash)]
        #[repr(u32)]
        #[non_exhaustive]
        pub enum $name { $($(#[$case_about])* $case = $number,)+ }

        impl $name {
            /// All cases, by their numbers.
            pub const ALL: &'static [$name] = &[$($name::$case,)+];

            /// The number in documents and answers.
            pub const fn number(self) -> u32 {
                self as u32
            }

            /// The case with this number, if there is one.
            pub fn from_number(number: u32) -> Option<$name> {
                Self::ALL.iter().copied().find(|case| case.number() == number)
            }

            /// The name in document 01's words.
            pub const fn name(self) -> &'static str {
                match self { $($name::$case => $text,)+ }
            }
        }

        impl fmt::Display for $name {
            fn fmt(&self, to: &mut fmt::Formatter<'_>) -> fmt::Result {
                to.write_str(self.name())
            }
        }
    };
}

numbered! {
    /// An edition of the envelope.
    Edition {
        /// XC00088B
        B = 1, "B";
        /// SC00088D
        D = 2, "D";
    }
}

numbered! {
    /// The editions that allow a message.
    Editions {
        /// edition B alone
        B = 1, "B";
        /// edition D alone
        D = 2, "D";
        /// both, with the same rows
        Both = 3, "B and D";
    }
}

impl Editions {
    /// Whether this edition is among them.
    pub const fn allow(self, edition: Edition) -> bool {
        self as u32 & edition as u32 != 0
    }
}

numbered! {
    /// Kinds of row. Those that open something have no bytes of their own.
    Kind {
        ExtensionOpens = 1, "extension";
        BaseOpens = 2, "base";
        StandardRepresentation = 3, "standard representation";
        OwnRepresentation = 4, "own representation";
        DateAbsolute = 5, "date absolute";
        DateForward = 6, "date forward";
        DateBackward = 7, "date backward";
        ReceivedBy = 8, "received by";
        ReceivedFrom = 9, "received from";
        ReceivedId = 10, "received id";
        ReceivedVia = 11, "received via";
        ToOpens = 12, "to";
        FromOpens = 13, "from";
        ReceiverOpens = 14, "intended receiver";
        AgentName = 15, "agent name";
        AddressesOpen = 16, "addresses";
        Address = 17, "address";
        ResolversOpen = 18, "resolvers";
        ExtraKey = 19, "extra key";
        AnyText = 20, "any text";
        AnyBytes = 21, "any bytes";
        Comments = 22, "comments";
        PayloadLength = 23, "payload length";
        PayloadEncoding = 24, "payload encoding";
        EncryptedOpens = 25, "encrypted";
        EncryptedItem = 26, "encrypted item";
        OwnKey = 27, "own key";
        OwnValue = 28, "own value";
        BehaviourOpens = 29, "transport behaviour";
    }
}

numbered! {
    /// Parameters by their codes. [`Parameter::Own`] has a bit in a presence word and cannot be asked for; [`Parameter::Date`] has none,
    /// and asks for the base envelope's own date.
    Parameter {
        Own = 0x00, "own parameter";
        To = 0x02, "to";
        From = 0x03, "from";
        Representation = 0x04, "representation";
        Comments = 0x05, "comments";
        PayloadLength = 0x06, "payload length";
        PayloadEncoding = 0x07, "payload encoding";
        Encrypted = 0x08, "encrypted";
        Receiver = 0x09, "intended receiver";
        Received = 0x0a, "received";
        Behaviour = 0x0b, "transport behaviour";
        Date = 0x20, "date";
    }
}

numbered! {
    /// Why a call is refused: the answers of documents 01 and 02 but 0.
    Fault {
        EditionUnknown = 1, "edition not 1 or 2";
        InputEnds = 2, "input ends inside identifier or length, or before the declared end";
        IdentifierWrong = 3, "identifier not FD or FE";
        LengthWrong = 4, "short length 1 or 2, or long length below 65,540";
        EnvelopeLimit = 5, "17th envelope, or declared length over the limit";
        EnvelopeEnds = 6, "a byte is needed at the declared end";
        CodeWrong = 7, "code not allowed here";
        TextWrong = 8, "text byte 01 to 1F (in notes 09, 0A and 0D are allowed)";
        DateWrong = 9, "date code, digit, range, padding or designator wrong";
        NumberWrong = 10, "payload length wrong, or its value too large";
        LengthFormWide = 11, "length form too wide";
        AgentLevel = 12, "agent of level 9";
        ClosedEarly = 13, "closing 01 before the declared end";
        RowsShort = 14, "all well, but rows or words exceed the room";
        TableWrong = 15, "rows up to here begin no table of this edition, or a row is wrong";
        OutputShort = 16, "output too short";
        ParameterUnknown = 17, "parameter code not one that can be asked for";
        FiguresFull = 19, "figures of 1,000,000 messages, or no figures";
    }
}
