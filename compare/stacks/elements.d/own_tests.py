"""GStreamer's own tests of rtpsession and rtpbin, with the elements of the plugin in their place. Of
rtpsession.c those of TWCC and of feedback are left out, as the profile is AVP. A test that is known to fail
does so by design, for the reason that stands beside it; it fails this script too if it passes."""
import re
import subprocess

import building

FILES = ("rtpsession", "rtpbin", "rtpcollision", "rtpbin_buffer_list")
MAKERS = ("gst_element_factory_make", "gst_harness_new_with_padnames")
OURS = {"rtpsession": "jalweddsession", "rtpbin": "jalweddbin"}
AVP = """
    test_multiple_ssrc_rr test_multiple_senders_roundrobin_rbs test_no_rbs_for_internal_senders
    test_internal_sources_timeout test_receive_rtcp_app_packet test_dont_lock_on_stats
    test_ignore_suspicious_bye test_ssrc_collision_when_sending test_ssrc_collision_when_sending_loopback
    test_ssrc_collision_when_receiving test_ssrc_collision_third_party
    test_ssrc_collision_third_party_favor_new test_ssrc_collision_never_send_on_non_internal_source
    test_illegal_rtcp_fb_packet test_dont_send_rtcp_while_idle test_send_rtcp_when_signalled
    test_change_sent_sdes test_disable_sr_timestamp test_disable_probation test_clear_pt_map_stress
    test_packet_rate test_stepped_packet_rate
""".split()
BY_DESIGN = {
    "test_multiple_senders_roundrobin_rbs":
        "35 sources take 35 blocks in two packets of one compound, and not 31 and then 4 (RFC 3550, 6.1)",
    "test_no_rbs_for_internal_senders":
        "each SSRC of this host is a participant, and reports about the others too (6.4)",
    "test_ignore_suspicious_bye": "a BYE from another host with an SSRC of this one is a collision (8.2)",
    "test_ssrc_collision_never_send_on_non_internal_source":
        "an SSRC that another source has stays its own; rtpsession says its goodbye, and takes it (8.2)",
    "test_change_sent_sdes": "items besides the CNAME are sent in one of three reports (6.3.9)",
    "test_aux_sender": "retransmission needs feedback, which AVP lacks (RFC 4585)",
}

# rtpsession asks its clock to wait for its next report alone. The element also wakes each second, so that to
# crank the clock means to do it until RTCP went out.
UNTIL_SENT = """  for (guint i = 0; i < 60 && {sent}; i++) {{
    gst_test_clock_crank ({clock});
    gst_test_clock_wait_for_next_pending_id ({clock}, NULL);
  }}
"""
PATCHES = {
    "  gst_test_clock_crank (h->testclock);\n}\n":
        "  guint had = gst_harness_buffers_in_queue (h->rtcp_h);\n"
        + UNTIL_SENT.format(sent="gst_harness_buffers_in_queue (h->rtcp_h) == had", clock="h->testclock")
        + "}\n",
    "  gst_test_clock_crank (tclock);\n  gst_test_clock_crank (tclock);\n":
        UNTIL_SENT.format(sent="buffers == NULL", clock="tclock"),
}


def renamed(text):
    for name, other in OURS.items():
        for maker in MAKERS:
            text = text.replace(f'{maker} ("{name}"', f'{maker} ("{other}"')
    for before, after in PATCHES.items():
        text = text.replace(before, after)
    return text


def tests_of(name, text):
    found = re.findall(r"tcase_add_test \(\w+,\s*(test_\w+)", text)
    return [test for test in found if name != "rtpsession" or test in AVP]


def outcome(build, program, test):
    """Why a test fails, or nothing."""
    words = ["timeout", "120", str(program)]
    done = subprocess.run(words, env=build.environment(GST_CHECKS=test, CK_DEFAULT_TIMEOUT="30"), text=True,
                          stdout=subprocess.PIPE, stderr=subprocess.STDOUT)
    if re.search(r"^100%: Checks: 1", done.stdout, re.M):
        return ""
    told = re.search(r"^[^ \n]*\.c:\d+:[FE]:.*|^Bail out.*", done.stdout, re.M)
    return told[0][:160] if told else f"status {done.returncode}"


def run_file(build, source, name):
    """The faults of the tests of one file, and how many passed."""
    text = renamed((source / f"{name}.c").read_text())
    file = build.folder / f"{name}.c"
    file.write_text(text)
    program = building.compiled(file, build.folder / name, "-w")
    faults, passed = [], 0
    for test in tests_of(name, text):
        known = BY_DESIGN.get(test)
        why = outcome(build, program, test)
        if why and not known:  # test_sender_eos looks for EOS at once after the BYE that precedes it
            why = outcome(build, program, test)
        passed += not why
        if bool(why) != bool(known):
            faults.append(f"{name} {test}: {why or 'passes, though it was known to fail'}")
        elif known:
            print(f"  {test} fails by design: {known}")
    print(f"  {name}: {passed} of {len(tests_of(name, text))} pass", flush=True)
    return faults


def run(build, source):
    """What is wrong, with the tests of an unpacked source package of gst-plugins-good1.0."""
    return [fault for name in FILES for fault in run_file(build, source / "tests/check/elements", name)]
