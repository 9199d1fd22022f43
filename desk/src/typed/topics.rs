//! What can be typed: every command with its form, a sentence and examples.

/// A command, or something else that help can be asked for.
pub struct Topic {
    /// What it is asked for by.
    pub name: &'static str,
    /// How it is typed.
    pub form: &'static str,
    /// What it does, for the list.
    pub short: &'static str,
    /// What more there is to know.
    pub long: &'static str,
    /// Lines as they could be typed.
    pub examples: &'static [&'static str],
}

/// How an offer is typed.
pub const OFFER_FORM: &str = "offer TIME ROOT call|put front|trailing PREMIUM CONTRACTS";
/// How an order is typed.
pub const ORDER_FORM: &str = "order TIME ROOT [reset symbol|firm|both|t|e|te]";
/// How an order is sent away.
pub const AWAY_FORM: &str = "away TIME ROOT call|put front|trailing PREMIUM CONTRACTS IDENTITY REPORTS";
/// How a report from away is typed.
pub const BACK_FORM: &str = "back TIME IDENTITY CONTRACTS";
/// How a closing is typed.
pub const CLOSE_FORM: &str = "close TIME IDENTITY";
/// How a lockout is typed.
pub const LOCK_FORM: &str = "lock [TIME] ROOT|firm";
/// How the table of rules is asked for.
pub const REMAINING_FORM: &str = "remaining [TIME] [firm|ROOT|rule NUMBER] [call|put front|trailing]";

/// The commands, in the order of the list.
pub const COMMANDS: [Topic; 21] = [
    Topic {
        name: "arm",
        form: "arm FILE",
        short: "arm from the profile in FILE, before all else",
        long: "Reads the profile and arms the unit. The rules are said in words, with a warning where a line may not mean what was meant. \
               A profile that is refused is shown with a mark under what is wrong, and the unit stays as it was.",
        examples: &["arm profile"],
    },
    Topic {
        name: "check",
        form: "check FILE",
        short: "what the profile in FILE means, or what is wrong",
        long:
            "Says every rule of a profile in words, or what is wrong and where, and arms nothing. The library decides; what is said beside \
               its number and line explains it.",
        examples: &["check profile"],
    },
    Topic {
        name: "offer",
        form: OFFER_FORM,
        short: "offer a fill",
        long:
            "Offers a fill of so many contracts at a premium in dollars, on calls or puts of the front two months or of the trailing ones. The library \
               grants what the rules allow: all, a part or nothing.",
        examples: &["offer 10ms XYZ call front 7.00 200", "offer +1s QQQ put trailing 0.05 1000"],
    },
    Topic {
        name: "order",
        form: ORDER_FORM,
        short: "pass an order, which may reset the root or the firm",
        long: "Passes an order on a root. A reset comes first: it frees the root (symbol), the firm, or both, and their counts begin anew. With \
               t, e and te the root, the firm or both are freed alike, and what they have counted stays. See help resets.",
        examples: &["order 20ms XYZ", "order now XYZ reset symbol", "order now XYZ reset t"],
    },
    Topic {
        name: "lock",
        form: LOCK_FORM,
        short: "lock a root or the firm by hand",
        long: "Locks by hand, at the clock's time unless another is typed. An order with a reset frees it.",
        examples: &["lock XYZ", "lock firm", "lock 10s QQQ"],
    },
    Topic {
        name: "away",
        form: AWAY_FORM,
        short: "send an order to an away market",
        long: "Sends an order away under an identity from 0 to 65535, with up to 16 reports to come. It gets the verdict of an order without a reset, \
               and is open only if it may pass; with a rate rule in the profile, a place of the log is then kept for each report. Refused \
               with 17 if 64 orders are open, with 18 if the identity is, with 15 if the log has too few places. send is the same word.",
        examples: &["away 10ms XYZ call front 7.00 200 5 3"],
    },
    Topic {
        name: "back",
        form: BACK_FORM,
        short: "a fill of an order sent away comes back",
        long: "Counts a fill of an open order at the premium of its sending, whether something is locked or not, and also past a limit. Limits \
               that are then reached or passed trip. It uses one of the order's reports. Refused with 18 if no such order is open, with 19 if \
               fewer contracts are, or no report is left.",
        examples: &["back 20ms 5 150", "back +1s 5 50"],
    },
    Topic {
        name: "close",
        form: CLOSE_FORM,
        short: "close an order sent away",
        long: "Ends an open order: its identity is free again, and so are the log places of the reports that did not come. Refused with 18 if no \
               such order is open.",
        examples: &["close 2s 5"],
    },
    Topic {
        name: "remaining",
        form: REMAINING_FORM,
        short: "limits by rule and unit, what is used and left",
        long: "Shows the limits, at the clock's time or a later one: all, those of the firm, of one root or of one rule, on all units or on one. \
               A rule of a root without call/put and month counts each of the four units for itself, so it has four rows; any other rule \
               has one. In brackets is what the library's Remaining answers: contracts, executions, or ten-thousandths of a dollar. A \
               rule and a unit that is not the rule's own are refused with 13.",
        examples: &["remaining", "remaining +1s XYZ", "remaining XYZ put front", "remaining rule 0 put front", "remaining firm"],
    },
    Topic {
        name: "profile",
        form: "profile [FILE [over]]",
        short: "the rules that the unit runs, as a profile's text",
        long: "Shows the active rules as the library writes them, or writes them to FILE: a line a rule, no leading zeros, windows as they take \
               effect, no empty fields at the end. To arm with that text gives the same rules. A file that is there already is left alone, \
               unless over is typed after its name.",
        examples: &["profile", "profile active", "profile active over"],
    },
    Topic {
        name: "account",
        form: "account [FILE [over]]",
        short: "the day's account: each root's figures, and the firm's",
        long: "Shows for each root, and then for the firm, orders accepted and rejected, fills, contracts, notional, cuts, trips and reports from \
               away, as the library counts them, or writes them to FILE as a table of commas, notional in ten-thousandths of a dollar. Orders \
               sent away count as orders, what comes back in its own column and as trips alone, refused events nowhere. A file that is there \
               already is left alone, unless over is typed after its name.",
        examples: &["account", "account evening.csv", "account evening.csv over"],
    },
    Topic {
        name: "status",
        form: "status",
        short: "the clock, what is locked and why, orders sent away",
        long:
            "In brackets are the library's numbers: roots tripped, roots locked by hand, roots locked at all, and the lowest locked root, \
               64 for none. Below are the orders sent away that are open.",
        examples: &["status"],
    },
    Topic {
        name: "save",
        form: "save FILE [words] [over]",
        short: "write the day's events as 16-byte records, or in words",
        long: "Writes every record of the day, refused and faulty ones too, byte for byte and in their places, so that the program and replay \
               print the same lines. In words each event stands as it would be typed; replay and desk report take that, and the program does \
               not. A file that is there already is left alone, unless over is typed last.",
        examples: &["save day.records", "save day.records over", "save day.txt words"],
    },
    Topic {
        name: "replay",
        form: "replay FILE [old] [quiet]",
        short: "pass the day in FILE; quiet shows no plain pass",
        long: "Passes every record of a file, or every event of a day in words, each with its answer. If a line of words cannot be read, or \
               the file is no day, nothing of it is passed and the place is said. With old its records are read in the old form, of 12 bytes. With quiet only cuts, trips, rejections, resets and refusals are shown.",
        examples: &["replay day.records", "replay day.records quiet", "replay last-year.records old"],
    },
    Topic {
        name: "undo",
        form: "undo",
        short: "take back the last line or replay that passed events",
        long: "Takes back the last offer, order, lockout or other event that was typed, one that was refused too, or all of the last replay: \
               the day before it is replayed on a fresh unit. It can be typed again, back to the day's begin; clear cannot be taken back.",
        examples: &["undo"],
    },
    Topic {
        name: "widen",
        form: "widen FILE TO [over]",
        short: "move old 12-byte records in FILE to 16 bytes in TO",
        long: "Writes the records of FILE, of the old form, to TO as records of 16 bytes, their times as microseconds. Nothing is written if one \
               of them is faulty (16). A file that is there already is left alone, unless over is typed last.",
        examples: &["widen last-year.records day.records"],
    },
    Topic {
        name: "narrow",
        form: "narrow FILE TO [over]",
        short: "and back, where every record fits the old form",
        long: "Writes the records of FILE, of 16 bytes, to TO in the old form of 12. That form has no orders sent away, no microseconds beyond \
               the millisecond and no resets t, e and te: a record with one of these does not fit (20), its place and the reason are said, and \
               nothing is written. A file that is there already is left alone, unless over is typed last.",
        examples: &["narrow day.records old.records"],
    },
    Topic {
        name: "report",
        form: "report FILE [from TIME to TIME]",
        short: "write a page (HTML) on the day, or a stretch of it",
        long: "Writes one file that any browser shows: the rules by the greatest share of their limit, locks, the use of every rule over time, \
               and what did not simply pass. With a name that ends in .csv or .json, the same figures without pictures.",
        examples: &["report day.html", "report day.html from 09:30 to 10:00", "report day.json"],
    },
    Topic {
        name: "clear",
        form: "clear",
        short: "set the unit to zeros; arm again after it",
        long: "Forgets the rules and the day. Nothing may pass until the unit is armed again.",
        examples: &["clear"],
    },
    Topic {
        name: "help",
        form: "help [COMMAND]",
        short: "this list, or more on a command",
        long: "There is also help time, help numbers, help resets, help refusals and help profile.",
        examples: &["help offer", "help refusals"],
    },
    Topic { name: "quit", form: "quit", short: "the end", long: "Ends the desk, as the end of the input does. At a terminal it asks first where typed events are not saved.", examples: &["quit"] },
];

/// What help can be asked for besides commands.
pub const OTHERS: [Topic; 3] = [
    Topic {
        name: "time",
        form: "TIME",
        short: "",
        long: "A time of the day: from midnight (250us, 10ms, 2.5s, 3min, 1h), of the clock's face (09:30, 09:30:15, 09:30:15.250, \
               09:30:15.250125), the unit's clock (now), or after it (+10ms). Records keep microseconds; the unit counts in whole milliseconds. \
               An event may not be earlier than the clock, which stands at the millisecond of the last event that was not refused.",
        examples: &["order 09:30:00.250 XYZ", "order 09:30:00.250125 XYZ", "order +10ms XYZ"],
    },
    Topic {
        name: "numbers",
        form: "[PLACE REFUSAL VERDICT GRANT ROOT-TRIP FIRM-TRIP]",
        short: "",
        long: "What the program prints for the same record: the event's place from 1, the refusal or 0, the verdict (0 free, 1 firm locked, \
               2 root locked), the contracts granted or come back, and 1 where the root or the firm tripped.",
        examples: &["[2 0 0 50 1 0]"],
    },
    Topic {
        name: "profile",
        form: "FIRM,TYPE,ROOT,LIMIT[,TIME[,T[,CALL/PUT,MONTH]]]",
        short: "",
        long: "One rule a line. TYPE is rate_ntnl, rate_vol, rate_count, abs_ntnl, abs_vol or abs_count; LIMIT is in dollars, contracts or \
               executions; TIME is the window of a rate rule in milliseconds. A rule of the firm has no ROOT and a T; C or P with F (the front \
               two months) or T (trailing ones) makes a rule of one unit, and without them a rule of a root counts each of its four units for itself. No blanks, no commas inside numbers, LF after each line.",
        examples: &["ABCD,rate_vol,XYZ,500,1000", "ABCD,abs_ntnl,,2000000,,T", "ABCD,rate_count,QQQ,10,60000,,P,F"],
    },
];
