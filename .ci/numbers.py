#!/usr/bin/env python3
"""Looks at each public field and parameter that is a bare number, and fails where one may be a value of
a table of the standards and isn't listed here: such a value is an enum of `sle_numbers` or
`fcltu_numbers`. It looks at u8 and u16 under every name, and at wider numbers under a name of a table.
"""
import re
import sys
from pathlib import Path

TOP = Path(__file__).resolve().parent.parent

# What a peer may fill with any number keeps its number, also in what repeats it.
OF_A_PEER = """
bind_pdu Bind service|bind_pdu Bind version|bind_pdu PeerAbort diagnostic|bind_pdu Unbind reason
assoc_core check_bind service|assoc_core check_bind version
door_model Served diagnostic|session_core Ended diagnostic
drill_text AskLine service|drill_text AskLine version|drill_text AskLine name
drill_text EndWord Aborted|drill_text EndWord Broken|drill_text EndWord PeerAborted
fcltu_pdu Async production|fcltu_pdu Async uplink
fcltu_pdu CltuReport production|fcltu_pdu CltuReport uplink
return_pdu GetParameter name|return_pdu Notification Production|return_pdu RafReport production
return_pdu RcfReport production|return_pdu ReturnNumbers frame_sync|return_pdu ReturnNumbers symbol
return_pdu ReturnNumbers subcarrier|return_pdu ReturnNumbers carrier
return_pdu ReturnNumbers production
sle_common Parameter Mode|sle_common Parameter Cycle|sle_common Parameter Quality
fcltu_service CltuInvocation Get|raf_service RafInvocation Get|rcf_service RcfInvocation Get
return_service ReturnInvocation Get
user_lines Told Aborted
explain_lines StreamLine Aborted|explain_lines StreamLine Parameter
explain_words put_locks locks|explain_words put_statuses production
explain_words put_statuses uplink|explain_words put_why diagnostic
"""

# Counts, identifications, octets, spans, and numbers of this product's own: no table has them.
NO_TABLE = """
ber_core BerFault found|ber_shape Identifier.octet ->|record_form EntryFault found
record_form Fields.octet least|record_form Fields.octet greatest|record_form Fields.octet ->
words split_part separator|words Words.read separator|words WriteWords.put separator
cds_time Cds days|cds_time Rest Micros|sle_common Gvcid spacecraft|sle_common Gvcid version
sle_common Channel Virtual|sle_common ReportKind Cycle
isp1_tml Beat.new interval|isp1_tml Beat.new factor|isp1_tml head kind
isp1_tml Message interval|isp1_tml Message factor|door_model Served interval
door_model Served factor|drill_text AskLine interval|drill_text AskLine factor
session_core Ended interval|session_core Ended factor|session_core Standing interval
session_core Standing factor|station_config Instance timeout|station_config Site interval_from
station_config Site interval_to|station_config Site factor_from|station_config Site factor_to
fcltu_pdu * invoke|return_pdu * invoke|fcltu_pdu Throw event
fcltu_service CltuAnswer.returned invoke|fcltu_service CltuParameter ReportingCycle
fcltu_service CltuParameter ReturnTimeout|fcltu_service Fcltu.new timeout
raf_service Raf.new timeout|rcf_service Rcf.new timeout|report_cycle Schedule cycle
return_service ReturnService.new timeout|session_services ServiceState.new timeout
session_services Invocation.invoke ->|session_services put_fcltu_answer invoke
session_services put_return_answer invoke
archive_commands init_archive ->|archive_commands list_archive ->|script_commands drill ->
script_commands rehearse ->|script_commands put_bad_site cause|command_ends tell ->
command_ends Status.code ->|provider_commands provide_on ->|provider_commands provide ->
station_config SiteFault cause
sle_numbers Numbered.number ->|sle_numbers Numbered.from_number number
user_lines Tag.number ->|user_lines Told invoke|user_lines Told name
explain_cli Status.code ->|explain_lines StreamLine tag|explain_words put_name number
station_snapshot SourceNow productions
explain_words put_why number|explain_words put_invoker invoke|explain_words put_performer invoke
run_plan Ports.as_slice ->|run_plan Ports.push port|run_plan RunPlan feed|user_words Plan port
run_host tell_end exit
run_command run ->|run_command RunStatus.code ->|run_command RunStatus cause
user_show Ending.code ->|user_task Task.put invoke|user_core Event invoke|user_core Awaited invoke
user_task Invocation Schedule|user_task Work report|user_task Work.report ->|user_words Asked report
capture_cli Place connection|capture_cli Status.code ->|line_meaning Ending cause
picture_cli Status.code ->
"""

# What an index keeps of the last statuses: its fields are whole numbers, and its parts show them.
OF_AN_INDEX = """
archive_index Parts carrier|archive_index Parts frame_sync|archive_index Parts production
archive_index Parts subcarrier|archive_index Parts symbol
"""

PLAIN = ("tests_", "bench_", "sample_", "kill_", "plain_")
OCTETS = re.compile(r"&(?:'\w+ )?(?:mut )?\[u8\]|\[u8; [^\]]*\]|Vec<u8>")
SMALL = re.compile(r"\b(?:u8|u16)\b")
WIDE = re.compile(r"\b(?:u32|u64|u128|usize|i64|i128)\b")
OF_TABLES = re.compile(
    "diagnostic|status|kind|reason|quality|mode|service|version|production|uplink|lock|cause"
    "|event|report|parameter|cycle", re.IGNORECASE)

BLOCK = re.compile(r"^(?:pub )?(struct|enum|trait|impl)\b[^{;]*\{\n(.*?)^\}", re.MULTILINE | re.DOTALL)
CALL = r"fn (\w+)(?:<[^>]*>)?\(([^)]*)\)(?: -> ([^\n{]+))?"


def called(start, text):
    """Each parameter and answer of the calls that begin so."""
    for name, given, answer in re.findall(start + CALL, text):
        yield from ((name, it, kind) for it, kind in re.findall(r"(\w+): ([^,]+)", given))
        yield name, "->", answer


def public_in(text):
    """What stands in public: its item, its name and its type."""
    yield from called(r"(?m)^pub ", text)
    for block in BLOCK.finditer(text):
        kind, body = block.groups()
        head = block[0].partition("{")[0]
        name = re.search(r"(?:for|struct|enum|trait|impl(?:<[^>]*>)?) (\w+)(?:<.*>)?\s*$",
                         head.split(" where")[0].split(":")[0].strip())
        name = name[1] if name else head.strip()
        if kind == "struct":
            yield from ((name, *it) for it in re.findall(r"(?m)^    pub (\w+): ([^\n]+),$", body))
        if kind == "enum" and head.startswith("pub"):
            yield from ((name, *it) for it in re.findall(r"\b(\w+): ([^,\n}]+)", body))
            yield from ((name, *it) for it in re.findall(r"\b(\w+)\(([^)]*)\)", body))
        if kind == "trait" and head.startswith("pub"):
            yield from ((f"{name}.{it}", *more) for it, *more in called(r"(?m)^    ", body))
        if kind == "impl" and " for " not in head:
            yield from ((f"{name}.{it}", *more) for it, *more in called(r"(?m)^    pub ", body))


def bare_numbers():
    for path in sorted((TOP / "crates").glob("*/src/**/*.rt")):
        crate = path.relative_to(TOP).parts[1]
        if crate.startswith(PLAIN):
            continue
        for item, name, kind in public_in(re.sub(r"//[^\n]*", "", path.read_text(encoding="utf-8"))):
            kind = OCTETS.sub("", kind)
            if SMALL.search(kind) or WIDE.search(kind) and OF_TABLES.search(name):
                yield f"{crate} {item} {name}"


def main():
    listed = {it.strip() for it in (OF_A_PEER + NO_TABLE + OF_AN_INDEX).replace("\n", "|").split("|")} - {""}
    found = set(bare_numbers())
    of_any = {re.sub(r"^(\w+) \S+ (\w+)$", r"\1 * \2", it): it for it in found}
    unlisted = sorted(it for it in found
                      if it not in listed and re.sub(r"^(\w+) \S+ (\S+)$", r"\1 * \2", it) not in listed)
    unknown = sorted(it for it in listed if it not in found and it not in of_any)
    for it in unlisted:
        print(f"numbers: {it}: a bare number that isn't listed in .ci/numbers.py")
    for it in unknown:
        print(f"numbers: {it}: listed in .ci/numbers.py, and not there")
    print(f"numbers: {len(found)} bare numbers looked at")
    return 1 if unlisted or unknown else 0


if __name__ == "__main__":
    sys.exit(main())
