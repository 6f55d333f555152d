"""What `doubt/memory` knows of tests: which it leaves out, what it changes in its copy of those of services, and how
one ends because of a refusal. `doubt/fits` sees that the sources have what is changed."""
import re

# Tests that take long, since they do many times what others do once; those of engines, whose assertions don't say what
# was refused (the program's runs do); and those that hold a mail or a partition by a number of messages, which are
# others where a session without memory for a hint sends more.
LEFT_OUT = re.compile(r"eval::many_groups|openings::most_items|partition::a_thousand_marks|"
                      r"versions::each_of_many_found|writes::replies_carry_a_write_on|"
                      r"engine_runs::.*|talk_runs::.*|delayed::.*|pending::.*")

# What is changed: whoever waits at a gate for what a refusal has ended gives up sooner; how many messages a session
# needs isn't looked at, since one without memory for a hint needs others; and a write that ended as unsettled gives its
# refusal.
EASED = (("doors.rt", "0..20_000_000u32", "0..20_000u32"),
         ("gates.rt", "0..1_000_000u32", "0..20_000u32"),
         ("asked.rt", "counts.since(before), *messages,", "before, before,"),
         ("sessions.rt", "Ok(stamp.value()),\n        _ =>",
          "Ok(stamp.value()),\n        Answer::Unsettled(_, refusal) => Err(refusal),\n        _ =>"),
         ("acknowledged.rt", "Ok(stamp.value()),\n        _ =>",
          "Ok(stamp.value()),\n        Answer::Unsettled(_, refusal) => Err(*refusal),\n        _ =>"))

# What a test says that ended because of a refusal: by its result, or by an assertion of what it was given, where 1 is
# the number of OutOfMemory. A service whose partition had no memory for a reply is closed.
ENDED_BY = re.compile(rb"(?m)^(error: | *left: (Err|Some)\()(OutOfMemory|AllocError|AllocFailed|Memory|Closed)\b|"
                      rb"^ *left: .*\bOutOfMemory\b|^ *left: Ok\(\(\[(\d+, )*1, |^(OutOfMemory|Closed) at ")
