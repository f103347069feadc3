#!/usr/bin/env python3
"""Bodies stopped after k turns, as cases of the test program `vectors`.

compare/vectors and compare/stacks build VECTORS, the program of compare/src/vectors.rs with the
instrumented copy of the Rust source, and run this:

  stacks.py VECTORS FOLDER                 appends the cases to FOLDER/stdin and their answers to
                                           FOLDER/stdout
  stacks.py VECTORS --search COUNT OURS    writes nothing: makes COUNT bodies more, changed at random,
                                           and prints the cases on which OURS and the copy differ

Each body, as a type, is run with a ceiling of 256 and stopped after k turns. It is two cases, the
reading and the check; compare/src/vectors.rs says what a case and an answer are. The answers are the
instrumented copy's: none of our own code makes one.

The ceiling of 256 is passed before 4,096 operators or 256 wraps are, so 6 does not occur here and 8
occurs by counts only. The list takes every arm and every conditional block of the source's stack
machine but three that cannot be taken: a 4,097th operator, a part of an identifier with the length
0 (a `0` there closes the identifier), and the end of a whole symbol, which a stopped run does not
reach.
"""
import os
import subprocess
import sys

N = 256
END = 999  # a k past the body's end
PART = 1 << 20  # bytes that OURS is given at once; it takes 1,572,864

# the stopped calls on a type: their numbers, and the numbers of workspace for each node
READING = (5, 64)
CHECK = (7, 8)
MOST_ENTRIES = 3 * N  # three numbers for each node, of which the ceiling allows N

STANDARD = "aAbDdfhIiJNnOPpRrSsuVvWwqBEeFGHjKkLlMmQTtUXxYyZz"


class Numbers:
    """Numbers that are the same on every machine."""

    def __init__(self, seed):
        self.state = seed

    def below(self, n):
        self.state = (self.state * 6364136223846793005 + 1442695040888963407) % (1 << 64)
        return (self.state >> 33) % n

    def one(self, things):
        return things[self.below(len(things))]


# Bodies that leave one node, by what they leave
MODULE = ["4main", "s", "So", "SC", "3Lib"]
NAME = ["3foo", "1a", "7FooItem", "10HTTPServer", "4main", "5a_bcd"]
NOMINAL = ["4main3FooV", "4main3BarC", "4main1EO", "4main2TTa", "s5ErrorV", "So8NSObjectC", "4main3FooV5InnerC"]
PROTOCOL = ["SQ", "SH", "4main1PP", "s8SendableP", "SL"]
ENTITY = ["4main3fooyyF", "4main3fooyS2iF", "4main1aSivp", "4main3FooV1bSSvg", "4main3BarCfD", "4main3BarCACycfC", "4main1aSivpZ", "4main1aSivpfi"]
TYPE = NOMINAL + ["Si", "SS", "Sb", "x", "q_", "q3_", "qz", "qd_0_", "qd1_2_", "yt", "Si_t", "Si_SSt", "Si1a_SS1bt", "Sid_t", "Si1ad_t", "yyc", "S2ic", "SiyKc", "ySiYaKc", "SiSg",
                  "SaySiG", "SDySSSiG", "Sim", "Siz", "SiXMt", "SiXp", "Xl", "yp", "SQ_p", "SQ_SHp", "4main1PP_SQp", "4UnitQz", "4UnitSTQz", "4UnitQy_", "4UnitQy1_", "4UnitQd__",
                  "yyXE", "yyXB", "yyXC", "yyXA", "yyXK", "yyXf", "yyXL", "yyXU", "4main3FooV3BarVySi_SSG", "4main3FooVyG", "SaySaySiGG", "SDySSSaySiSgGG"]
REQUIREMENT = ["SQRz", "SQR_", "SQR2_", "SQRd__", "SQRd0_1_", "SQ4UnitRpz", "SQ4UnitSTRp_", "SQxRQ", "4main3BarCRbz", "4main3BarCRb_", "4main3BarCxRB", "4main3BarC4UnitRcz",
               "SiRsz", "SiRs_", "SixRS", "Si4UnitRtz", "Si4UnitSTRt0_", "RlzC", "Rl_C", "xRLC", "4UnitRmzC", "4UnitSTRm_C", "4main1PRz", "SQ_pRz", "s4P_inRz"]
CONFORMANCE = ["4main3FooVSQAA", "4main3FooVSQ4main", "SiSHs", "4main3FooV4main1P3Lib", "4main3FooVSQ_p4main", "SiSQ4main3FooV", "SiSQ4main1aSivp"]

METADATA = list("afmnFBSALiIlrPdR")
VALUE_WITNESSES = "al ca ta de xx XX Xx CP Cp cp Tk tk pr TK Cc Tt tT xs xg ug up ui et st".split()
ACCESSORS = list("pgsMrmwWGal")
THUNKS = list("qujVoODIXm")


def operators():
    """Each operator after what it takes."""
    yield from TYPE + MODULE + NAME + PROTOCOL + ENTITY + REQUIREMENT
    for c in STANDARD:
        yield "S" + c
    yield from ["S2i", "S3oV", "S2C", "S3a_", "SiS2g", "SiS4gAB", "y", "_", "d", "K", "Ya", "l", "rl", "r_l", "r0_l", "rz_l", "r_0_zl", "r_zzl", "rd", "SQRzl", "SQRzSQR_r0_l", "SQRzSiRs_rzl"]
    for c in ACCESSORS:
        yield "4main1aSiv" + c
        yield "4main3FooV1aySQRzlxv" + c if c in "pg" else "4main3FooV1aSiv" + c
    for c in "CcDdieE":
        yield {"C": "4main3BarCACycfC", "c": "4main3BarC1xACSi_tcfc", "i": "4main1aSivpfi"}.get(c, "4main3BarCf" + c)
    yield from ["4main3BarCyxcSQRzlfC", "4main3BarCyyxcSQRzlfC", "4main3BarC1ayxcSQRzlfc", "4main3BarC_AAyS2ctcfC", "4main3BarC1a_ACSi_SStcfc", "4mainfD", "4main3fooyyFfd", "4main3BarC_SifC", "4main3BarCSifC", "4main3BarCySifC"]
    for c in METADATA:
        yield "4main3FooVM" + c
    yield from ["SQMp", "4main1PMp", "4main1aSivpMV", "4mainMXM", "4main3FooVMXE", "4main3fooyyFMXX", "yMK", "4mainMK", "SiMK", "SiN", "4main3FooVN", "x_tN"]
    for t in CONFORMANCE:
        yield t + "Mc"
    for c in "PpaS":
        yield "4main3FooVSQAAW" + c
    yield from ["SiWV", "4main1aSivpWvd", "4main1aSivpWvi", "Si4main3FooVSQAAWl", "SiSiSHsWL", "SiSiSH4mainWlWl"]
    for w in VALUE_WITNESSES:
        yield "Siw" + w
    for c in THUNKS:
        yield "4main3fooyyFT" + c
    yield from ["4main3FooVSQAA4main3fooyyFTW", "SiSHs4main1aSivgTW", "SQTL", "4main1PTS", "1ASTTl", "1A4main1PTl", "4main1PP1ASQTn", "4main1PP1AST_SQTn", "4main1PP1A_SQTn",
                "4main1PP1A4main1QTn", "4main3fooyyFTY_", "4main3fooyyFTY0_", "4main1aSivgTY3_", "4main1aSivpZ", "4main3fooyyFZ", "4main3BarCfDZ"]


COMPOSED = [
    # functions, labels and signatures
    "4main3foo3barySi_tF", "4main3foo3bar3bazySi_SStF", "4main3foo_3bazySi_SStF", "4main3foo__ySi_SStF", "4main3fooyySi_SStF", "4main3fooySi_SStF", "4main3foo1aySiF", "4main3fooyS2iF",
    "4main3foo1ayxlF", "4main3fooyxxlF", "4main3fooyxq_tr0_lF", "4main3fooyyxSQRzlF", "4main3fooyyx_q_tSQRzSHR_r0_lF", "4main3fooyyxSQ4UnitRpzSTRzlF", "4main3foo1a1byx_q_tr0_lF",
    "4main3fooyyKF", "4main3fooyyYaF", "4main3fooyyYaKF", "4main3fooyyKYaF", "4main3FooV3baryyFZ", "4main3FooV3bar4timesS2i_tF", "6sample7DerivedC5greet5timesS2i_tF",
    "4main3FooV1aACvp", "4main3FooV1aACvg", "4main3FooV1aACvpZ", "4main3FooV1aACvpfi", "4main3FooVACycfC", "4main3FooV1aACSi_tcfC", "4main3FooV1a1bACSi_SStcfc", "4main7FooItemV0C0Sivp",
    "4main3FooV1axvpSQRzl", "4main3FooV1axSQRzlvp", "4main3FooV1ayxSQRzlvg", "4main1aySivp", "4main1alxvp", "4main3FooV1aSQRzlxvg", "4main3FooV1aySQRzr0_lxvs", "4main3fooyyF3baryyF", "4main3fooyyF3baryyF3bazSivp", "4main3fooyyF5LocalV", "4main3fooyyyyXEF",
    "4main3fooyyyyXE_SitF", "4main3fooyyyKXEKF", "4main3fooyyS2icF", "4main1fS2iXCvp", "4main3fooyySaySiGF", "4main3fooyySDySSSiG_SiSgtF", "4main3fooySi3arg_tF", "4main3fooySid_tF",
    # substitutions and words
    "4mainAA", "4mainAAAA", "4main3FooAB", "4main3FooA2B", "4main3FooAab", "4main3FooAabA", "4main3FooA2a3bA", "4main3FooA0a2B", "4main3FooA0A", "4mainA_", "4mainA0_", "4main3FooVACAA",
    "4main3FooVyACG", "4main3FooVAC_ACtACc", "4main3FooVySiGAD", "SiSgA", "SiSgAA", "SiSgABA", "4UnitQzABA", "4UnitQzABAAB", "4main3FooVACm", "4main3FooVA2C_tACc", "4main3FooV3fooyA2C_ACtF",
    "1a1b1c1d1e1f1g1h1i1j1k1l1m1n1o1p1q1r1s1t1u1v1w1x1y1zA1A", "1a1b1c1d1e1f1g1h1i1j1k1l1m1n1o1p1q1r1s1t1u1v1w1x1y1z2aa2bbA_A0_", "1a1b1c1d1e1f1g1h1i1j1k1l1m1n1o1p1q1r1s1t1u1v1w1x1y1z2aa2bbA1_",
    "7FooItem0A3Bar", "7FooItem0a3BarB0", "7FooItem0aB3Baz", "7FooItem0B1_", "10HTTPServer0A4Item", "7FooItem0AaV", "4main7FooItem0B4Kind0aBC0V", "3a_b0A0", "004abcd0A0", "007_abcdef1V",
    "4main004_aeaoC", "4main4wordV0A0Sivp", "4main8WordListV0bA5CountSivp", "5Café", "6CafésV", "4Café", "4main5CaféV", "2é1a",
    # types within types
    "SaySaySaySiGGG", "SDySSSDySSSiGGSg", "SiSgSgSg", "Simmm", "Sizmz", "SaySi_SStG", "SaySiSgGSg", "SaySiG_SaySSGtm", "yyc_ycct", "S2icS2icc", "SiSSc_SStSic", "SQ_SH_p", "SQ_SHSLp_m", "ypm", "ypXp",
    "SQ_pm", "SQ_pXMT", "4main1P_p", "4main1P_4main1Qp", "SQ_4main1Pp", "SQ_p_SH_ptm", "4main3FooV3BarVyx_q_G", "4main3FooVyx_3BarVyq_GG", "4main3FooVySi_G", "4main3FooV_SiG", "4main3FooVy_SiG",
    "4main3FooVy_Si_SSG", "4main3FooVySi__SSG", "xSg", "q_Sg", "4UnitQzSg", "SayxG", "Say4UnitQzG", "4UnitSTQz_4UnitQy_t", "XlSg", "Xl_Xltm", "Xl_p", "Xl_SQp", "S3i_tc", "S2i_SStc", "S4i_A_",
    # several nodes left
    "y_dKYa", "4main3foo1a1b", "SiSSSb", "yyyy", "xq_qd_0_", "SiyySS", "SQRzSHRz", "lrl", "4main3fooyyFAA1aSivp", "SiNSSN",
    # runtime records in a row
    "4main3FooVMaN", "4main3FooVMn", "4main1PMp", "4main3FooVSQAAWP", "4main3FooVSQAAMcMK", "4main3FooVACSQAAWlMK", "4main3FooV1aSivgTWTq", "4main3FooVSQAA4main3FooV1aSivgTW", "4main3fooyyYaFTuTY_",
    "4main1aSivpWvdMK", "SiwxxMK", "SiWVMK", "4main1PP1ASQTnMK", "SQTLMK",
]

REFUSED = [
    # letters that no operator has, and operators that stop or go on wrongly
    "B", "D", "E", "H", "I", "J", "L", "U", "b", "e", "g", "h", "i", "j", "k", "n", "o", "u", "$", "-", "é", " ", "Sib", "SiyyB",
    "A", "4mainA", "4mainA2", "4mainAa", "4mainAB", "4mainAb", "4mainA0", "4mainA-", "AA", "A_", "4mainA18446744073709551616A", "4mainA18446744073709551615_", "4mainA18446744073709551588_",
    "4mainA18446744073709551589_", "S", "S0i", "S4097i", "S2", "S18446744073709551616i", "Sc", "S1", "S01i", "S_", "S-", "Sé",
    "X", "Xz", "SiXM", "SiX", "Y", "Yb", "Yé", "q", "qd", "qd_", "q1", "qx", "q18446744073709551615_", "q18446744073709551614_", "q18446744073709551613_", "qd18446744073709551614__",
    "qd_18446744073709551615_", "1AQ", "1AQx", "1AQy", "1AQd_", "1AQy18446744073709551614_", "R", "SQR", "SQRx", "SQR1", "SQRp", "SQ1ARP", "SQ1ARC", "SQ1ART", "SQ1ARM", "SQRd_", "Rl", "Rlz", "RlzD",
    "xRLD", "1ARmz", "1ARmzx", "r", "r_", "r1l", "rx", "rz", "r18446744073709551614_l", "r18446744073709551615_l", "4main1aSiv", "4main1aSivx", "f", "4mainfx", "4main3FooVM", "4main3FooVMx",
    "4mainMX", "4mainMXx", "W", "Wx", "Wv", "4main1aSivpWvx", "Siw", "Siwx", "Siwxz", "Siwzz", "T", "4main3fooyyFTx", "4main3fooyyFTY", "4main3fooyyFTY0", "4main3fooyyFTYx",
    # identifiers
    "0", "00", "5main", "4mai", "0A", "0a0", "000", "0_", "000a", "001", "001_", "3ab", "18446744073709551615a", "18446744073709551616a", "7FooItem0c0", "7FooItem0C", "7FooItem0a", "7FooItem0aB",
    "1é", "2aé", "3aéb", "2ab00", "000_",
    # a node missing or of another kind
    "C", "V", "O", "P", "a", "3FooV", "SiV", "Si3FooV", "3Foo3BarVV", "y3FooV", "x3FooC", "SaySiG3FooV", "SQ_p3FooC", "t", "_t", "Sit", "4main_t", "y_t", "SiSS_t", "Si_SS1a_t", "c", "yc", "Sic", "yKc",
    "yyYaYac", "yyKKc", "yyKYac", "4mainyc", "y4mainc", "XE", "yXB", "SiXC", "Sg", "4mainSg", "ySg", "S2g", "z", "m", "Xp", "XMt", "4mainm", "ym", "4mainXp", "4mainXMt", "p", "_p", "Sip", "Si_p",
    "4main_p", "SQp", "ypp", "yp_p", "SQ_SH_p_p", "SQ_SHp_p", "G", "yG", "SiG", "4mainyG", "ySiG", "_SiG", "Qz", "SiQz", "STQz", "SiSTQz", "SQ4UnitSTSHRpz", "Rz", "SiRz", "Rsz", "4mainRsz", "xRQ", "SQRQ", "RS",
    "SiRS", "SiRpz", "4UnitRpz", "F", "yF", "yyF", "3fooyyF", "4main3fooSiF", "4mainSiyyF", "Siyyyy3fooF", "4main3foo1aySi_SStF", "4mainSiySi_tF", "4mainS2i_tF", "SQRz3fooyyF", "4main3fooyySQRzF", "v",
    "Sivp", "3fooSivp", "4main3fooyvp", "4mainS2ivp", "fD", "xfD", "SifD", "fC", "SifC", "4main3BarC1aACSi_SStcfC", "fi", "4main3fooyyFfi", "Sifi", "4main1aSivgfi", "fe", "xfE", "Z", "SiZ", "4mainZ",
    "4main3FooVZ", "Ma", "4mainMa", "4main3fooyyFMn", "Mp", "SiMp", "xMp", "Mc", "4mainMc", "SQ4mainMc", "SiSi4mainMc", "MV", "SiMV", "MK", "MXM", "xMXM", "N", "4mainN", "yN", "WV", "4mainWV", "Wvd", "SiWvi",
    "WP", "SQ4mainWP", "4main3FooVSQWP", "Wl", "4main3FooVSQAAWl", "wxx", "4mainwxx", "TW", "4main3fooyyFTW", "SQ4main4main3fooyyFTW", "TL", "SiTL", "TS", "Tl", "SQTl", "SiSQTl", "Tn", "SQTn", "1ASQTn",
    "SiSQTn", "4mainSQ_SQTn", "TY_", "SiTY_", "Tq", "SiTq", "4mainTq",
]


def many_nodes():
    """Bodies about the ceiling and about 256 counts."""
    yield "y" * 256
    yield "y" * 257
    yield "Si" + "m" * 253
    yield "Si" + "m" * 254
    yield "4mainA%dA" % (N - 2)
    yield "4mainA%dA" % (N - 1)
    yield "4mainA18446744073709551615A"
    yield "4main3FooVA18446744073709551615C"
    yield "S127i"
    yield "S128i"
    yield "S4096i"
    yield "yS%diy" % ((N - 3) // 2)
    yield "SaySiGA9A"
    yield "SaySiGA40AA9A"
    yield "SiSgSgSgSgSgSgSgSgSgSgAG"
    yield "SiSgSgSgSgSgSgSgA2eA2eA2E"
    yield "r" + "z" * 256 + "l"
    yield "r" + "z" * 257 + "l"
    yield "r" + "_" * 256 + "l"
    yield "r" + "_" * 257
    yield "yr" + "0_z" * 128 + "l"
    yield "yr" + "0_z" * 128 + "zl"
    yield "4main1aSivp3fooyyF"
    yield "yS60i_t"
    yield "Si_" + "SS" * 60 + "t"
    yield "Si_" + "SS" * 60 + "tyc"
    yield "4main3foo" + "_" * 30 + "ySi_" + "SS" * 29 + "tF"
    yield "4main3foo" + "1a" * 30 + "ySi_" + "SS" * 29 + "tF"
    yield "4main3foo" + "1a" * 29 + "ySi_" + "SS" * 29 + "tF"
    yield "SQ_" + "SH" * 60 + "p"
    yield "4main3FooVy" + "Si" * 60 + "G"
    yield "SQRz" * 40 + "l"
    yield "4main" + "1aV" * 60


def kind_of(r, depth):
    """A type, made of others to this depth."""
    if depth == 0:
        return r.one(TYPE)
    a, b, c = kind_of(r, depth - 1), kind_of(r, 0), r.one(PROTOCOL)
    return r.one([a + "Sg", a + "m", a + "z", a + "_t", a + "_" + b + "t", a + "1k_" + b + "1vt", b + "d_" + a + "t", a + b + "c", a + "yc", "y" + a + "Kc", b + a + "YaKc", "Say" + a + "G", "SDy" + b + a + "G",
                  "4main3BoxVy" + a + b + "G", "4main3BoxVy" + a + "_" + b + "G", a + b + "XE", a + "XMt", a + "Xp", c + "_" + c + "p", "4Unit" + c + "Qz"])


def entity(r, depth):
    context = r.one(MODULE[:1] + NOMINAL + ["4main3fooyyF", "4main1aSivg"])
    name, t, u = r.one(NAME), kind_of(r, depth), kind_of(r, 0)
    signature = r.one(["", "", "l", "r0_l", r.one(REQUIREMENT) + "l", r.one(REQUIREMENT) + r.one(REQUIREMENT) + "r_l"])
    return r.one([context + name + "y" + u + t + signature + "F", context + name + "_" + t + u + signature + "F", context + name + "1a_" + t + u + "_" + t + "t" + signature + "F", context + name + "yy" + t + "YaK" + signature + "F",
                  context + name + t + signature + "v" + r.one(ACCESSORS), context + "y" + t + u + "c" + signature + "fC", context + r.one(["fD", "fd", "fe", "fE"])])


def recorded(r, depth):
    e, t, c = entity(r, depth), kind_of(r, depth), r.one(CONFORMANCE)
    return r.one([e + "Z", e + "T" + r.one(THUNKS), t + "M" + r.one(METADATA), t + "N", t + "WV", t + "w" + r.one(VALUE_WITNESSES), c + e + "TW", c + "W" + r.one("PpaS"), t + c + "W" + r.one("lL"), c + "Mc", e + "MV", e + "TY_",
                  e + "Wvd", e + "MK", t + "1A" + r.one(PROTOCOL) + "Tn"])


def turns(body):
    """k: at the start, within, at the end."""
    n = len(body)
    return sorted({1 + n // 6, 2 + n // 3, END})


def bodies():
    """Each k and body."""
    seen = set()
    for body in list(operators()) + REFUSED + list(many_nodes()):
        seen.add((END, body))
        yield END, body
    for k in (0, 1, 2):
        yield k, ""
        yield k, "y_B"
    r = Numbers(20261116)
    made = [f(r, depth) for depth in (0, 1, 2) for f in (kind_of, entity, recorded) for _ in range(22)]
    for body in COMPOSED + made:
        for k in turns(body):
            if (k, body) not in seen:
                seen.add((k, body))
                yield k, body


def changed(r, body):
    """One change at random: a part left out, doubled, moved, or another put in."""
    a, b = sorted((r.below(len(body) + 1), r.below(len(body) + 1)))
    c = r.below(len(body) + 1)
    other = r.one(COMPOSED)
    d = r.below(len(other) + 1)
    return r.one([body[:a] + body[b:], body[:b] + body[a:], body[:c] + other[d:], body[:c] + r.one("AAASyy_dKtcXYxqQzmpGRlrFvfZMNWwTaVCOPsgi0123") + body[c:], body + other, body[:c] + r.one(["AA", "AB", "AC", "A2b", "Ab", "y", "_", "Si"]) + body[c:]])


def cases(k, body):
    """The two cases of a body."""
    return ["%d\t%d\t%d\t%d\t%d\t%s\n" % (call, N, k, a_node * N, MOST_ENTRIES, body.encode().hex()) for call, a_node in (READING, CHECK)]


def output_of(command, lines):
    return subprocess.run(command, input="".join(lines), stdout=subprocess.PIPE, check=True, encoding="ascii").stdout


def answers(vectors, lines):
    """What the instrumented copy of the Rust answers to these cases."""
    return output_of([vectors, "answers"], lines)


def search(vectors, count, ours):
    """Prints the cases that differ and returns how many there are."""
    r = Numbers(count)
    known = list(operators()) + COMPOSED + list(many_nodes())
    differ = done = 0
    while done < count:
        lines, size = [], 0
        while size < PART and done < count:
            body = r.one([r.one(known), entity(r, 1 + r.below(2)), recorded(r, 1 + r.below(3)), kind_of(r, r.below(4))])
            for _ in range(r.below(4)):
                body = changed(r, body)[:1000]
            both = cases(r.one([END, END, END, 1 + r.below(20)]), body)
            lines += both
            size += sum(map(len, both))
            done += 1
        mine, theirs = output_of([ours], lines).splitlines(), answers(vectors, lines).splitlines()
        assert len(mine) == len(theirs) == len(lines), "as many answers as cases"
        for line, a, b in zip(lines, mine, theirs):
            if a != b:
                differ += 1
                print(line.rstrip("\n"), a, b, sep="\n  ")
    print("%d bodies, %d cases, %d differ" % (done, 2 * done, differ))
    return differ


def append(vectors, folder):
    lines = [line for k, body in bodies() for line in cases(k, body)]
    for name, content in (("stdin", "".join(lines)), ("stdout", answers(vectors, lines))):
        with open(os.path.join(folder, name), "a") as f:
            f.write(content)


def main():
    if sys.argv[2] == "--search":
        sys.exit(1 if search(sys.argv[1], int(sys.argv[3]), sys.argv[4]) else 0)
    append(sys.argv[1], sys.argv[2])


main()
