"""Wrong versions of the second program: edits of second/src, each with the check that has to fail on it, and
what that check has to have compared. An edit's old text stands once in its file. What a version does wrong is
its name."""

import dataclasses

# The test scripts, below tests/.
HISTORIES, CONVERSATION, ENDURANCE = "rpmcrun/histories.py", "rpmcrun/conversation.py", "rpmcrun/endurance.py"
DEVICE = "device/compare.py"


@dataclasses.dataclass(frozen=True)
class Check:
    script: str
    test: str  # its name, as the script prints it
    says: str  # a pattern for what it says of two things that were compared and differ


ANSWERED = r".*: line \d+ `.*`: rpmcrun `.*`, the second program `.*`, document 01 `"
RESETS = Check(HISTORIES, "jobs interrupted by a reset after each step", ANSWERED)
POWER_UPS = Check(HISTORIES, "jobs interrupted by a power-up after each step", ANSWERED)
STEPS = Check(HISTORIES, "jobs, a step at a time", ANSWERED)
RANGES = Check(HISTORIES, "whole ranges", ANSWERED)
ENDLESS = Check(HISTORIES, RESETS.test, r".*: rpmcrun: it says more than \d+ bytes")

# Where what is wrong is that nothing comes, waiting for it is the comparison.
SILENT = r"no answer in \d+ seconds, after b''$"
NEVER = Check(CONVERSATION, "conversation 1: an answer before the next line", SILENT)
NOT_YET = Check(CONVERSATION, "conversation 1: a line with the front of the next", SILENT)
OTHERWISE = Check(CONVERSATION, NEVER.test, r"answer to `.*`: `.*`, not `")
BROKEN_OFF = Check(CONVERSATION, "conversation: breaks off after `P`, 1 byte", "standard output: `P 0.*`, not ``$")

CALLS = Check(ENDURANCE, "calls: in a conversation", r"\d+ lines of \d+ bytes take \d+ reads and \d+ writes$")
MORE_MEMORY = r"\d+ kB for .*, \d+ kB for a short input$"
MANY_LINES = Check(ENDURANCE, "memory: 1000000 lines", MORE_MEMORY)
LONG_LINE = Check(ENDURANCE, "memory: a line of 32 MB", MORE_MEMORY)

GIVEN = r"the second program(?:, in `.*`: work \d+)? gives .*, not .*; the request: `"
AT_ARRIVAL = Check(DEVICE, "checks on arrival", GIVEN)
FIRST_BYTES = Check(DEVICE, "frames by first byte", GIVEN)
SHORT_IMAGES = Check(DEVICE, "images of 0 to 20 bytes", GIVEN)
LONG_IMAGES = Check(DEVICE, "images of 65,535 to 65,537 bytes", GIVEN)
COUNTS = Check(DEVICE, "counts", GIVEN)
OFFSETS = Check(DEVICE, "offsets", GIVEN)
BAD_JOBS = Check(DEVICE, "jobs beyond their length or the count", GIVEN)
STEP_A_CALL = Check(DEVICE, "jobs, one step a call", GIVEN)
EXAMPLES = Check(DEVICE, "the document's examples", GIVEN)


@dataclasses.dataclass
class Edit:
    name: str
    file: str
    old: str
    new: str
    caught_by: Check
    also: tuple = ()  # a second change of the file, old text and new


NOT_ENABLED = "state.reset_enabled = false;"
TO_POWER_ON = "=> *state = POWER_ON,"
ARRIVAL = "checks::arrival(frame, image, &state.session_keys)"

FRAMES = [
    Edit("a read keeps reset-enable", "device.rs", NOT_ENABLED,
         "state.reset_enabled = reset_enabled && frame[0] == 0x96;", RANGES),
    Edit("an ignored 9B keeps reset-enable", "device.rs", NOT_ENABLED,
         "state.reset_enabled = reset_enabled && frame[0] == 0x9B && state.job.there;", RANGES),
    Edit("9B alone keeps reset-enable", "device.rs", NOT_ENABLED,
         "state.reset_enabled = reset_enabled && frame == [0x9B];", RANGES),
    Edit("99 resets without 66", "device.rs", "[RESET] if reset_enabled =>", "[RESET] =>", RANGES),
    Edit("99 with more bytes resets", "device.rs", "[RESET] if reset_enabled =>", "[RESET, ..] if reset_enabled =>",
         RANGES),
    Edit("66 with more bytes enables", "device.rs", "[RESET_ENABLE] =>", "[RESET_ENABLE, ..] =>", RANGES),
    Edit("66 does not enable while busy", "device.rs", "[RESET_ENABLE] =>", "[RESET_ENABLE] if !state.job.there =>",
         RESETS),
    Edit("work clears reset-enable", "device.rs", "let mut done = 0;",
         "state.reset_enabled = false; let mut done = 0;", RESETS),
    Edit("a reset keeps session keys", "device.rs", TO_POWER_ON,
         "=> *state = State { session_keys: state.session_keys, ..POWER_ON },", RESETS),
    Edit("a reset keeps the reply", "device.rs", TO_POWER_ON, "=> *state = State { reply: state.reply, ..POWER_ON },",
         RANGES),
    Edit("a reset does not drop a job", "device.rs", TO_POWER_ON,
         "=> *state = if state.job.there { *state } else { POWER_ON },", RESETS),
    Edit("9B alone is taken", "device.rs", "        [OP1, _, ..] if",
         "        [OP1] => state.status = 0x04,\n        [OP1, _, ..] if", RANGES),
    Edit("a frame while busy replaces the job", "device.rs", "[OP1, _, ..] if !state.job.there =>", "[OP1, _, ..] =>",
         STEPS),
    Edit("the reply stays after a refused frame", "device.rs", "    state.reply = NO_REPLY;",
         f"    if {ARRIVAL}.is_ok() {{ state.reply = NO_REPLY; }}", RESETS),
    Edit("a busy read shows the status once", "device.rs", "output.fill(BUSY);",
         "output.fill(0xFF); output[0] = BUSY;", RESETS),
    Edit("a read has zeros behind the reply", "device.rs", "output.len()), 0xFF);",
         "output.len()), if state.reply.there { 0 } else { 0xFF });", RESETS),
]

CHECKS = [
    Edit("check 1 gives 02h", "checks.rs", "> LAST_TYPE {\n        return Err(0x04);",
         "> LAST_TYPE {\n        return Err(0x02);", RANGES),
    Edit("a longer frame is taken", "checks.rs", "if frame.len() != LAYOUTS[usize::from(frame_type)].length {",
         "if frame.len() < LAYOUTS[usize::from(frame_type)].length || frame.len() > 64 {", RANGES),
    Edit("the reserved byte is not looked at", "checks.rs", "if frame[3] != 0 {", "if false {", RANGES),
    Edit("check 4 gives 04h to type 00", "checks.rs", "Err(if frame_type == ROOT_KEY { 0x06 } else { 0x04 })",
         "Err(0x04)", RANGES),
    Edit("check 4 comes before check 3", "checks.rs", "if frame[3] != 0 {",
         "if frame[3] != 0 && u32::from(frame[2]) < count {", RANGES),
    Edit("check 6 gives 08h", "checks.rs", "return Err(0x02);", "return Err(0x08);", RESETS),
    Edit("type 00 is taken on a set root", "checks.rs", "(frame_type == ROOT_KEY && root == SET)",
         "(frame_type == ROOT_KEY && root == SET && key.there)", RANGES),
    Edit("check 7 does not ask for a session key", "checks.rs", "(counter == UNSET || !key.there)", "counter == UNSET",
         RESETS),
    Edit("check 7 gives 02h", "checks.rs", "return Err(0x08);", "return Err(0x02);", RESETS),
    Edit("check 8 gives 04h to type 00", "steps.rs", "layout::ROOT_KEY => Err(0x02),",
         "layout::ROOT_KEY => Err(0x04),", RESETS),
    Edit("the first 28 digest bytes count", "layout.rs", "&digest[digest.len() - (layout.length - layout.signature)..]",
         "&digest[..layout.length - layout.signature]", RESETS),
    Edit("a session key frame is checked under the root key", "steps.rs",
         "(Kind::SessionKey, false) => (job.made_key, signed),",
         "(Kind::SessionKey, false) => (job.root_key, signed),", RESETS),
    Edit("data is compared before the signature", "steps.rs", "    let sent = &job.frame",
         "    if job.kind == Kind::Increment && image::word(&job.frame, 4) != value { return Err(0x10); }\n"
         "    let sent = &job.frame", RANGES),
    Edit("the last signature byte is not compared", "steps.rs", "if sent != layout::signature_of(frame_type, digest) {",
         "if sent[..sent.len() - 1] != layout::signature_of(frame_type, digest)[..sent.len() - 1] {", RESETS),
]

POSTING = "    let digest = sha256::bytes(&state.chain);\n    match job.kind {\n"

JOBS = [
    Edit("root state before the key", "steps.rs", "Kind::RootKeyAndCounter | Kind::RootKey if number < 8 => {",
         "Kind::RootKey if number == 0 => Some((ROOT_STATE, SET)),\n"
         "        Kind::RootKeyAndCounter | Kind::RootKey if number < 8 => {", RESETS),
    Edit("counter state before the value", "steps.rs", "[(VALUE, 0), (COUNTER_STATE, SET), (ROOT_STATE, SET)]",
         "[(COUNTER_STATE, SET), (VALUE, 0), (ROOT_STATE, SET)]", RESETS),
    Edit("root state before counter state", "steps.rs", "[(VALUE, 0), (COUNTER_STATE, SET), (ROOT_STATE, SET)]",
         "[(VALUE, 0), (ROOT_STATE, SET), (COUNTER_STATE, SET)]", RESETS),
    Edit("the all-FFh key sets root", "steps.rs", "Some([(VALUE, 0), (COUNTER_STATE, SET)][number])",
         "Some([(VALUE, 0), (COUNTER_STATE, SET)][number]).map(|s| if number == 1 { (ROOT_STATE, SET) } else { s })",
         RESETS),
    Edit("a root key write sets a set counter to 0", "steps.rs", "Kind::RootKey => Some((ROOT_STATE, SET)),",
         "Kind::RootKey => Some((VALUE, 0)),", RESETS),
    Edit("half-stored key bytes are in use", "image.rs", "!= UNSET {\n        key.copy",
         "!= UNSET || image[slot + ROOT_KEY] != 0xFF {\n        key.copy", RESETS),
    Edit("a failed job goes on", "steps.rs", "return end(state, status);",
         "if state.job.step == state.job.kind.length() { return end(state, status); } else { return; }", RESETS),
    Edit("a failed session key frame forgets the old key", "steps.rs", "return end(state, status);",
         "if state.job.kind == Kind::SessionKey { state.session_keys[usize::from(state.job.counter)].there = false; }\n"
         "        return end(state, status);", RANGES),
    Edit("a session key is there from step 4 on", "steps.rs", "(Kind::SessionKey, 4) => job.made_key = digest,",
         "(Kind::SessionKey, 4) => { job.made_key = digest;\n"
         "            state.session_keys[usize::from(job.counter)] = SessionKey { there: true, bytes: digest } }",
         STEPS),
    Edit("a root key write drops the session key", "steps.rs", POSTING,
         POSTING + "        Kind::RootKey => state.session_keys[usize::from(job.counter)].there = false,", RESETS),
    Edit("a session key is not replaced", "steps.rs", "state.session_keys[usize::from(job.counter)] = key;",
         "let old = &mut state.session_keys[usize::from(job.counter)]; if !old.there { *old = key; }", RESETS),
    Edit("all counters have one session key", "steps.rs", "state.session_keys[usize::from(job.counter)] = key;",
         "state.session_keys = [key; 4];", RESETS),
    Edit("the value wraps at 256", "steps.rs", "job.kept = value + 1,", "job.kept = (value + 1) & 0xFF,", RANGES),
    Edit("the reply has the tag behind the value", "steps.rs",
         "    bytes.extend_from_slice(&job.kept.to_be_bytes());\n",
         "    bytes.extend_from_slice(&job.kept.to_be_bytes());\n    bytes.rotate_right(4);\n", RESETS),
    Edit("work reports its quota", "device.rs", "(0, done)\n", "(0, if done > 0 { quota } else { 0 })\n", RESETS),
    Edit("work does one step too many", "device.rs", "while done < quota &&", "while done < quota.max(1) &&", RESETS),
    Edit("each store is made a step too early", "steps.rs", "    state.job.step += 1;\n",
         "    state.job.step += 1;\n    if state.job.step < state.job.kind.length() {\n"
         "        if let Some((place, word)) = next_store(&state.job) { image::store(image, slot + place, word); }\n"
         "    }\n", RESETS),
]

LINES = [
    Edit("P keeps session keys", "rpmcrun.rs", "self.state = state;",
         "self.state = State { session_keys: self.state.session_keys, ..state };", POWER_UPS),
    Edit("P does not drop a job", "rpmcrun.rs", "self.state = state;",
         "if !self.state.job.there { self.state = state; }", POWER_UPS),
    Edit("P unsets all counters", "rpmcrun.rs", "self.state = state;", "*self = Machine::new(); self.state = state;",
         POWER_UPS),
    Edit("another line clears reset-enable", "rpmcrun.rs", "            _ => None,",
         "            _ => { self.state.reset_enabled = false; None }", RANGES),
    Edit("leading zeros are taken", "decimal.rs", "|| (field.len() > 1 && field[0] == b'0')", "", RANGES),
    Edit("a plus sign is taken", "decimal.rs", "for character in field {",
         "for character in field.strip_prefix(b\"+\").filter(|rest| !rest.is_empty()).unwrap_or(field) {", RANGES),
    Edit("numbers wrap", "decimal.rs", ".checked_mul(10)?\n            .checked_add(u32::from(character - b'0'))?;",
         ".wrapping_mul(10)\n            .wrapping_add(u32::from(character - b'0'));", RANGES),
    Edit("lower-case digits are taken", "hex.rs", "        _ => None,",
         "        b'a'..=b'f' => Some(character - b'a' + 10),\n        _ => None,", RANGES),
    Edit("an odd digit is dropped", "hex.rs", "|| field.len() % 2 != 0", "", RANGES),
    Edit("S 256 is taken", "rpmcrun.rs", "decimal::read(quota, 255)?", "decimal::read(quota, 256)?", RANGES),
    Edit("R 0 is taken", "rpmcrun.rs", "if length == 0 {", "if false {", RANGES),
    Edit("R 256 is not taken", "rpmcrun.rs", "decimal::read(length, 256)?", "decimal::read(length, 255)?", RANGES),
    Edit("257 bytes are taken", "rpmcrun.rs", "if frame.len() > LONGEST_FRAME {",
         "if frame.len() > LONGEST_FRAME + 1 {", RANGES, ("2 + 2 * LONGEST_FRAME;", "4 + 2 * LONGEST_FRAME;")),
    Edit("a line that is too long is cut off", "rpmcrun.rs", "let room = LONGEST_LINE + 1 - line.len();",
         "let room = LONGEST_LINE - line.len();", RANGES),
    Edit("a long line is answered in pieces", "rpmcrun.rs", "        if newline.is_some() {\n",
         "        if newline.is_some() || line.len() > LONGEST_LINE {\n", RANGES),
    Edit("a CR at the end is dropped", "rpmcrun.rs", "match line {\n",
         "match line.strip_suffix(b\"\\r\").unwrap_or(line) {\n", RANGES),
    Edit("a blank at the end is dropped", "rpmcrun.rs", "match line {\n",
         "match line.strip_suffix(b\" \").unwrap_or(line) {\n", RANGES),
    Edit("a NUL ends a line", "rpmcrun.rs", "match line {\n",
         "match line.split(|byte| *byte == 0).next().unwrap_or(line) {\n", RANGES),
    Edit("bit 7 is dropped", "rpmcrun.rs", "    fn answer(&mut self, line: &[u8]) -> Option<String> {\n",
         "    fn answer(&mut self, line: &[u8]) -> Option<String> {\n"
         "        let line: &[u8] = &line.iter().map(|byte| byte & 0x7F).collect::<Vec<u8>>();\n", RANGES),
    Edit("an empty line is not answered", "rpmcrun.rs", "let text = machine.answer(&line)",
         "if line.is_empty() { continue; }\n        let text = machine.answer(&line)", RANGES),
    Edit("a last line without newline is dropped", "rpmcrun.rs", "return Ok(!line.is_empty());", "return Ok(false);",
         STEPS),
    Edit("the end of the input is answered without end", "rpmcrun.rs", "return Ok(!line.is_empty());",
         "return Ok(true);", ENDLESS),
    Edit("the end of the input is an empty line", "rpmcrun.rs", "while next_line(&mut input, &mut line)? {",
         "let mut going = true;\n    while going {\n        going = next_line(&mut input, &mut line)?;", RESETS),
    Edit("F 96 prints what it reads", "rpmcrun.rs", "Some(format!(\"F {}\", number))",
         "Some(if frame[0] == 0x96 { self.read(b\"1\")? } else { format!(\"F {}\", number) })", RANGES),
]

INPUT = "    let mut input = io::stdin().lock();\n"
OUTPUT = "    let mut output = io::stdout().lock();\n"
BUFFERED = "    let mut output = io::BufWriter::with_capacity(1 << 20, io::stdout().lock());\n"
FLUSHED = "        output.flush()?;\n    }\n"

PIPES = [
    Edit("the first line waits for input", "rpmcrun.rs", OUTPUT, BUFFERED, NEVER,
         ("    output.flush()?;\n    while", "    while")),
    Edit("answers wait for the end", "rpmcrun.rs", OUTPUT, BUFFERED, NEVER, (FLUSHED, "    }\n")),
    Edit("an answer waits while the next line is not whole", "rpmcrun.rs", INPUT + OUTPUT,
         "    let mut input = io::BufReader::new(io::stdin().lock());\n" + BUFFERED, NOT_YET,
         (FLUSHED, "        if input.buffer().is_empty() { output.flush()?; }\n    }\n")),
    Edit("all input is read first", "rpmcrun.rs", INPUT,
         "    let mut all = Vec::new();\n    io::Read::read_to_end(&mut io::stdin().lock(), &mut all)?;\n"
         "    let mut input = io::Cursor::new(all);\n", NEVER),
    Edit("a line in pieces is several lines", "rpmcrun.rs", "        if newline.is_some() {\n            return",
         "        {\n            return", OTHERWISE),
    Edit("a read that fails is the end of the input", "rpmcrun.rs", "Err(error) => return Err(error),",
         "Err(_) => return Ok(!line.is_empty()),", BROKEN_OFF),
    Edit("bytes are read one by one", "rpmcrun.rs", INPUT,
         "    let mut input = io::BufReader::with_capacity(1, std::fs::File::open(\"/dev/stdin\")?);\n", CALLS),
    Edit("an answer takes two writes", "rpmcrun.rs", "        writeln!(output, \"{}\", text)?;\n",
         "        write!(output, \"{}\", text)?;\n        output.flush()?;\n        writeln!(output)?;\n", CALLS),
    Edit("every line is kept", "rpmcrun.rs", "let text = machine.answer(&line)",
         "std::hint::black_box(line.clone().leak());\n        let text = machine.answer(&line)", MANY_LINES),
    Edit("a long line is kept whole", "rpmcrun.rs", "&piece[..piece.len().min(room)]", "piece", LONG_LINE,
         ("LONGEST_LINE + 1 - line.len()", "0")),
]

WORD = """    u32::from_be_bytes([
        bytes[place],
        bytes[place + 1],
        bytes[place + 2],
        bytes[place + 3],
    ])
"""
# outside of the image too, so that a wrong answer comes and no crash
WORD_ANYWHERE = "    u32::from_be_bytes(std::array::from_fn(|at| *bytes.get(place + at).unwrap_or(&0xFF)))\n"

# What only other images and states show.
IMAGES = [
    Edit("a bad slot gives 04h", "checks.rs", "return Err(0x20);", "return Err(0x04);", AT_ARRIVAL),
    Edit("root set alone is no bad slot", "image.rs", " || (root == SET && counter != SET)", "", AT_ARRIVAL),
    Edit("a state word of 1 is set", "image.rs", "word == SET || word == UNSET", "word <= 1 || word == UNSET",
         AT_ARRIVAL),
    Edit("value FFFFFFFFh is counted on", "steps.rs", "if value == 0xFFFF_FFFF {", "if false {", EXAMPLES,
         ("job.kept = value + 1,", "job.kept = value.wrapping_add(1),")),
    Edit("check 10 comes before check 9", "steps.rs", "if image::word(&job.frame, 4) != value {",
         "if image::word(&job.frame, 4) != value && value != 0xFFFF_FFFF {", STEP_A_CALL),
    Edit("check 4 goes by 4 counters", "checks.rs", "if u32::from(frame[2]) >= count {",
         "if u32::from(frame[2]) >= if count < 3 { count } else { 4 } {", AT_ARRIVAL),
    Edit("slots begin at 16", "image.rs", "    word(image, OFFSET) as usize + SLOT * usize::from(counter)",
         "    HEADER + SLOT * usize::from(counter)", AT_ARRIVAL),
    Edit("an image of 65,536 bytes is refused", "image.rs", "image.len() > LONGEST", "image.len() >= LONGEST",
         LONG_IMAGES),
    Edit("word 3 is not looked at", "image.rs", "|| word(image, TOTAL) as usize != image.len()", "", SHORT_IMAGES),
    Edit("5 counters are accepted", "image.rs", "MOST_COUNTERS: u32 = 4;", "MOST_COUNTERS: u32 = 5;", COUNTS),
    Edit("an offset that is no multiple of 4 is accepted", "image.rs", " || offset % 4 != 0", "", OFFSETS),
    Edit("bytes behind the last slot are refused", "image.rs", "end > image.len() as u64",
         "end != image.len() as u64", LONG_IMAGES),
    Edit("the end of the slots wraps", "image.rs", "let end = offset + SLOT as u64 * u64::from(count);",
         "let end = (offset + SLOT as u64 * u64::from(count)) & 0xFFFF_FFFF;", OFFSETS, (WORD, WORD_ANYWHERE)),
    Edit("a job of a request beyond its length is accepted", "device.rs", "job.step < job.kind.length()",
         "(job.step < job.kind.length() || job.kind == crate::state::Kind::Request)", BAD_JOBS),
    Edit("a refused work call reports a step", "device.rs", "return (number, 0);",
         "return (number, quota.min(1));", SHORT_IMAGES),
    Edit("a refused power-up is done", "device.rs", "(image::refusal(image), POWER_ON)", "(0, POWER_ON)", SHORT_IMAGES),
    Edit("a reset keeps the chaining words", "device.rs", TO_POWER_ON,
         "=> *state = State { chain: state.chain, ..POWER_ON },", FIRST_BYTES),
]

VERSIONS = FRAMES + CHECKS + JOBS + LINES + PIPES + IMAGES
