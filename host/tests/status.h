/* What status.c and sanitize_status.c share: sheets, and status texts with what is listed for them. Typed in from the paper, but for one status file,
 * which is a kernel's. Texts that are malformed stand in status_malformed.h. */
#ifndef STATUS_H
#define STATUS_H

#include "../include/urrezkalu.h"

/* A text and its length, NUL bytes within it counted. */
#define TEXT(text) text, sizeof(text) - 1

/* The wanted lines of the credentials in which no two values are alike. */
#define UID "Uid:\t7\t1002\t65534\t4294967294\n"
#define INH "CapInh:\t0000018a9bacbdce\n"
#define PRM "CapPrm:\t0000011223344556\n"
#define EFF "CapEff:\t0000010203040506\n"
#define BND "CapBnd:\t000000fedcba9876\n"
#define AMB "CapAmb:\t0000010000000400\n"
#define NNP "NoNewPrivs:\t1\n"
#define WHOLE UID INH PRM EFF BND AMB NNP

/* The line that every list ends with. */
#define LAST "not compared: securebits, group IDs\n"

/* The sheets: no two values alike; the same but for securebits and group IDs; the paper's report of case 2; the shortest; the longest. */
enum prediction { APART, OTHER_GROUPS, CASE_2, ZEROS, GREATEST, PREDICTIONS };

static const char *const predictions[PREDICTIONS] = {
    [APART] = "ruid=7\neuid=1002\nsuid=65534\nfsuid=4294967294\nrgid=5\negid=1003\nsgid=65533\nfsgid=4294967293\n"
              "permitted=0000011223344556\ninheritable=0000018a9bacbdce\neffective=0000010203040506\nbounding=000000fedcba9876\n"
              "ambient=0000010000000400\nsecurebits=b1\nnnp=1\n",
    [OTHER_GROUPS] = "ruid=7\neuid=1002\nsuid=65534\nfsuid=4294967294\nrgid=0\negid=0\nsgid=0\nfsgid=4294967294\n"
                     "permitted=0000011223344556\ninheritable=0000018a9bacbdce\neffective=0000010203040506\nbounding=000000fedcba9876\n"
                     "ambient=0000010000000400\nsecurebits=00\nnnp=1\n",
    [CASE_2] = "ruid=1000\neuid=1000\nsuid=1000\nfsuid=1000\nrgid=1000\negid=1000\nsgid=1000\nfsgid=1000\n"
               "permitted=0000000000002000\ninheritable=0000000000002000\neffective=0000000000002000\nbounding=000001ffffffffff\n"
               "ambient=0000000000002000\nsecurebits=00\nnnp=0\n",
    [ZEROS] = "ruid=0\neuid=0\nsuid=0\nfsuid=0\nrgid=0\negid=0\nsgid=0\nfsgid=0\n"
              "permitted=0000000000000000\ninheritable=0000000000000000\neffective=0000000000000000\nbounding=0000000000000000\n"
              "ambient=0000000000000000\nsecurebits=00\nnnp=0\n",
    [GREATEST] = "ruid=4294967294\neuid=4294967294\nsuid=4294967294\nfsuid=4294967294\n"
                 "rgid=4294967294\negid=4294967294\nsgid=4294967294\nfsgid=4294967294\n"
                 "permitted=000001ffffffffff\ninheritable=000001ffffffffff\neffective=000001ffffffffff\nbounding=000001ffffffffff\n"
                 "ambient=000001ffffffffff\nsecurebits=ff\nnnp=1\n",
};

/* The status file of Linux 6.18 for a `cat` with user ID 1000, CAP_NET_RAW raised in its ambient set, and no-new-privs. */
#define KERNEL \
    "Name:\tcat\nUmask:\t0022\nState:\tR (running)\nTgid:\t2681\nNgid:\t0\nPid:\t2681\nPPid:\t2678\nTracerPid:\t0\n" \
    "Uid:\t1000\t1000\t1000\t1000\nGid:\t1000\t1000\t1000\t1000\nFDSize:\t256\nGroups:\t \nNStgid:\t2681\nNSpid:\t2681\nNSpgid:\t2678\n" \
    "NSsid:\t16869\nKthread:\t0\nVmPeak:\t    3060 kB\nVmSize:\t    3060 kB\nVmLck:\t       0 kB\nVmPin:\t       0 kB\nVmHWM:\t    1692 kB\n" \
    "VmRSS:\t    1692 kB\nRssAnon:\t     112 kB\nRssFile:\t    1580 kB\nRssShmem:\t       0 kB\nVmData:\t     360 kB\nVmStk:\t     132 kB\n" \
    "VmExe:\t      20 kB\nVmLib:\t    1528 kB\nVmPTE:\t      48 kB\nVmSwap:\t       0 kB\nHugetlbPages:\t       0 kB\nCoreDumping:\t0\n" \
    "THP_enabled:\t1\nuntag_mask:\t0xffffffffffffffff\nThreads:\t1\nSigQ:\t0/96349\nSigPnd:\t0000000000000000\nShdPnd:\t0000000000000000\n" \
    "SigBlk:\t0000000000000000\nSigIgn:\t0000000000000000\nSigCgt:\t0000000000000000\nCapInh:\t0000000000002000\nCapPrm:\t0000000000002000\n" \
    "CapEff:\t0000000000002000\nCapBnd:\t000001fffeffffff\nCapAmb:\t0000000000002000\nNoNewPrivs:\t1\nSeccomp:\t0\nSeccomp_filters:\t0\n" \
    "Speculation_Store_Bypass:\tvulnerable\nSpeculationIndirectBranch:\talways enabled\nCpus_allowed:\t3\nCpus_allowed_list:\t0-1\n" \
    "Mems_allowed:\t00000000,00000000,00000000,00000000,00000000,00000000,00000000,00000000,00000000,00000000,00000000,00000000,00000000,00000000," \
    "00000000,00000000,00000000,00000000,00000000,00000000,00000000,00000000,00000000,00000000,00000000,00000000,00000000,00000000,00000000," \
    "00000000,00000000,00000001\nMems_allowed_list:\t0\nvoluntary_ctxt_switches:\t3\nnonvoluntary_ctxt_switches:\t0\n"

/* A status text that is read, the sheet beside it, and the list. */
struct compared_text {
    const char *text;
    size_t length;
    enum prediction prediction;
    const char *list;
};

static const struct compared_text compared_texts[] = {
    /* Nothing differs. Securebits and group IDs are not compared, and the newline of the last line may be missing. */
    {TEXT(WHOLE), APART, LAST},
    {TEXT(WHOLE), OTHER_GROUPS, LAST},
    {TEXT(UID INH PRM EFF BND AMB "NoNewPrivs:\t1"), APART, LAST},
    {TEXT("Uid:\t1000\t1000\t1000\t1000\nCapInh:\t0000000000002000\nCapPrm:\t0000000000002000\nCapEff:\t0000000000002000\n"
          "CapBnd:\t000001ffffffffff\nCapAmb:\t0000000000002000\nNoNewPrivs:\t0\n"),
     CASE_2, LAST},
    {TEXT("Uid:\t0\t0\t0\t0\nCapInh:\t0000000000000000\nCapPrm:\t0000000000000000\nCapEff:\t0000000000000000\n"
          "CapBnd:\t0000000000000000\nCapAmb:\t0000000000000000\nNoNewPrivs:\t0\n"),
     ZEROS, LAST},
    {TEXT("Uid:\t4294967294\t4294967294\t4294967294\t4294967294\nCapInh:\t000001ffffffffff\nCapPrm:\t000001ffffffffff\n"
          "CapEff:\t000001ffffffffff\nCapBnd:\t000001ffffffffff\nCapAmb:\t000001ffffffffff\nNoNewPrivs:\t1"),
     GREATEST, LAST},
    /* Each key alone. */
    {TEXT("Uid:\t8\t1002\t65534\t4294967294\n" INH PRM EFF BND AMB NNP), APART, "ruid 7 8\n" LAST},
    {TEXT("Uid:\t7\t1003\t65534\t4294967294\n" INH PRM EFF BND AMB NNP), APART, "euid 1002 1003\n" LAST},
    {TEXT("Uid:\t7\t1002\t0\t4294967294\n" INH PRM EFF BND AMB NNP), APART, "suid 65534 0\n" LAST},
    {TEXT("Uid:\t7\t1002\t65534\t429496729\n" INH PRM EFF BND AMB NNP), APART, "fsuid 4294967294 429496729\n" LAST},
    {TEXT(UID INH "CapPrm:\t0000011223344557\n" EFF BND AMB NNP), APART, "permitted 0000011223344556 0000011223344557\n" LAST},
    {TEXT(UID "CapInh:\t0000008a9bacbdce\n" PRM EFF BND AMB NNP), APART, "inheritable 0000018a9bacbdce 0000008a9bacbdce\n" LAST},
    {TEXT(UID INH PRM "CapEff:\t0000000000000000\n" BND AMB NNP), APART, "effective 0000010203040506 0000000000000000\n" LAST},
    {TEXT(UID INH PRM EFF "CapBnd:\t000001fedcba9876\n" AMB NNP), APART, "bounding 000000fedcba9876 000001fedcba9876\n" LAST},
    {TEXT(UID INH PRM EFF BND "CapAmb:\t0000010000000000\n" NNP), APART, "ambient 0000010000000400 0000010000000000\n" LAST},
    {TEXT(UID INH PRM EFF BND AMB "NoNewPrivs:\t0\n"), APART, "nnp 1 0\n" LAST},
    {TEXT(UID INH PRM EFF BND AMB "NoNewPrivs:\t0"), APART, "nnp 1 0\n" LAST},
    /* Some keys: in the order of the sheet, which is not that of the file. */
    {TEXT(UID "CapInh:\t0000011223344556\nCapPrm:\t0000018a9bacbdce\n" EFF BND AMB NNP), APART,
     "permitted 0000011223344556 0000018a9bacbdce\ninheritable 0000018a9bacbdce 0000011223344556\n" LAST},
    {TEXT("Uid:\t7\t65534\t1002\t4294967294\n" INH PRM EFF BND AMB NNP), APART, "euid 1002 65534\nsuid 65534 1002\n" LAST},
    {TEXT("Uid:\t4294967294\t1002\t65534\t7\n" INH PRM EFF BND AMB "NoNewPrivs:\t0\n"), APART, "ruid 7 4294967294\nfsuid 4294967294 7\nnnp 1 0\n" LAST},
    {TEXT(UID INH PRM "CapEff:\t000000fedcba9876\nCapBnd:\t0000010000000400\nCapAmb:\t0000010203040506\n" NNP), APART,
     "effective 0000010203040506 000000fedcba9876\nbounding 000000fedcba9876 0000010000000400\nambient 0000010000000400 0000010203040506\n" LAST},
    {TEXT("Uid:\t1000\t1000\t1000\t1000\nCapInh:\t0000000000002000\nCapPrm:\t0000000000000000\nCapEff:\t0000000000000000\n"
          "CapBnd:\t000001ffffffffff\nCapAmb:\t0000000000002000\nNoNewPrivs:\t0\n"),
     CASE_2, "permitted 0000000000002000 0000000000000000\neffective 0000000000002000 0000000000000000\n" LAST},
    {TEXT("Uid:\t0\t1\t0\t1\nCapInh:\t0000000000000000\nCapPrm:\t0000000000000001\nCapEff:\t0000000000000000\n"
          "CapBnd:\t8000000000000000\nCapAmb:\t0000000000000000\nNoNewPrivs:\t1\n"),
     ZEROS, "euid 0 1\nfsuid 0 1\npermitted 0000000000000000 0000000000000001\nbounding 0000000000000000 8000000000000000\nnnp 0 1\n" LAST},
    /* All ten: long, short, and the longest list. */
    {TEXT(WHOLE), CASE_2,
     "ruid 1000 7\neuid 1000 1002\nsuid 1000 65534\nfsuid 1000 4294967294\npermitted 0000000000002000 0000011223344556\n"
     "inheritable 0000000000002000 0000018a9bacbdce\neffective 0000000000002000 0000010203040506\nbounding 000001ffffffffff 000000fedcba9876\n"
     "ambient 0000000000002000 0000010000000400\nnnp 0 1\n" LAST},
    {TEXT("Uid:\t1\t2\t3\t4\nCapInh:\t000000000000000b\nCapPrm:\t000000000000000a\nCapEff:\t000000000000000c\n"
          "CapBnd:\t000000000000000d\nCapAmb:\t000000000000000e\nNoNewPrivs:\t1\n"),
     ZEROS,
     "ruid 0 1\neuid 0 2\nsuid 0 3\nfsuid 0 4\npermitted 0000000000000000 000000000000000a\ninheritable 0000000000000000 000000000000000b\n"
     "effective 0000000000000000 000000000000000c\nbounding 0000000000000000 000000000000000d\nambient 0000000000000000 000000000000000e\n"
     "nnp 0 1\n" LAST},
    {TEXT("Uid:\t4294967295\t4294967293\t1000000000\t1234567890\nCapInh:\t0123456789abcdef\nCapPrm:\tfedcba9876543210\n"
          "CapEff:\tffffffffffffffff\nCapBnd:\t8000000000000001\nCapAmb:\t0000000000000000\nNoNewPrivs:\t0\n"),
     GREATEST,
     "ruid 4294967294 4294967295\neuid 4294967294 4294967293\nsuid 4294967294 1000000000\nfsuid 4294967294 1234567890\n"
     "permitted 000001ffffffffff fedcba9876543210\ninheritable 000001ffffffffff 0123456789abcdef\neffective 000001ffffffffff ffffffffffffffff\n"
     "bounding 000001ffffffffff 8000000000000001\nambient 000001ffffffffff 0000000000000000\nnnp 1 0\n" LAST},
    /* What is found need not be valid: the ID 4294967295, bits above 40, a set that is not within another. */
    {TEXT("Uid:\t4294967295\t1002\t65534\t4294967294\n" INH PRM EFF BND AMB NNP), APART, "ruid 7 4294967295\n" LAST},
    {TEXT("Uid:\t7\t4294967295\t65534\t4294967294\n" INH PRM EFF BND AMB NNP), APART, "euid 1002 4294967295\n" LAST},
    {TEXT("Uid:\t7\t1002\t4294967295\t4294967294\n" INH PRM EFF BND AMB NNP), APART, "suid 65534 4294967295\n" LAST},
    {TEXT("Uid:\t7\t1002\t65534\t4294967295\n" INH PRM EFF BND AMB NNP), APART, "fsuid 4294967294 4294967295\n" LAST},
    {TEXT(UID "CapInh:\t0000038a9bacbdce\n" PRM EFF BND AMB NNP), APART, "inheritable 0000018a9bacbdce 0000038a9bacbdce\n" LAST},
    {TEXT(UID INH "CapPrm:\t8000011223344556\n" EFF BND AMB NNP), APART, "permitted 0000011223344556 8000011223344556\n" LAST},
    {TEXT(UID INH PRM "CapEff:\tffffffffffffffff\n" BND AMB NNP), APART, "effective 0000010203040506 ffffffffffffffff\n" LAST},
    {TEXT(UID INH PRM EFF "CapBnd:\tffffffffffffffff\n" AMB NNP), APART, "bounding 000000fedcba9876 ffffffffffffffff\n" LAST},
    {TEXT(UID INH PRM EFF BND "CapAmb:\t0000020000000000\n" NNP), APART, "ambient 0000010000000400 0000020000000000\n" LAST},
    {TEXT(UID INH "CapPrm:\t0000000000000000\n" EFF BND AMB NNP), APART, "permitted 0000011223344556 0000000000000000\n" LAST},
    /* Lines that are passed over, before, between and after those that are wanted. */
    {TEXT("\n" UID "\n\n" INH PRM EFF BND AMB NNP "\n"), APART, LAST},
    {TEXT("Name:\tcat\n" UID "Gid:\t5\t1003\t65533\t4294967293\n" INH PRM EFF BND AMB NNP "Seccomp:\t0"), APART, LAST},
    {TEXT("Uid\n Uid:\nuid:\n\tUid:\n" UID "CapInhX:\t0\nCapInh :\t0\ncapinh:\nCapInh\n" INH "CapPrm\n" PRM EFF BND AMB NNP "NoNewPrivs"), APART, LAST},
    {TEXT(WHOLE "Uid\nUID:\t0\nUids:\t0\nUid\t0\nUid=0\nxUid:\t0\nCap:\nCapSet:\t0\nNoNewPriv:\t0\nNoNewPrivsX:\t0\nnonewprivs:"), APART, LAST},
    {TEXT("\0\n\xff\n\0Uid:\t0\n\xffUid:\t0\nUid\0:\t0\nUi\n" UID INH PRM "\0\0\0\xfe\xff" "\n" EFF BND AMB NNP "\0"), APART, LAST},
    {TEXT("\r\n" UID "\r\n" INH PRM EFF BND AMB NNP "\r\n"), APART, LAST},
    {TEXT("Name:\tUid:\n" UID "x CapInh:\t0\n" INH PRM EFF BND ":\n:Uid:\n" AMB NNP "Name: NoNewPrivs:\t0\n"), APART, LAST},
    {TEXT("\xef\xbb\xbfUid:\t0\n" UID INH PRM EFF BND AMB NNP), APART, LAST},
    {TEXT("Uid\r:\t0\nU\nid:\t0\n" UID INH PRM EFF BND AMB NNP "CapAm\nb:\t0\n"), APART, LAST},
    /* A file of a kernel; proc(5)'s example, each value after one tab. */
    {TEXT(KERNEL), CASE_2, "bounding 000001ffffffffff 000001fffeffffff\nnnp 0 1\n" LAST},
    {TEXT("Name:\tbash\nUmask:\t0022\nState:\tS (sleeping)\nTgid:\t17248\nNgid:\t0\nPid:\t17248\nPPid:\t17200\nTracerPid:\t0\n"
          "Uid:\t1000\t1000\t1000\t1000\nGid:\t100\t100\t100\t100\nFDSize:\t256\nGroups:\t16 33 100\nVmPeak:\t  131168 kB\n"
          "CapInh:\t0000000000000000\nCapPrm:\t0000000000000000\nCapEff:\t0000000000000000\nCapBnd:\tffffffffffffffff\n"
          "CapAmb:\t0000000000000000\nNoNewPrivs:\t0\nSeccomp:\t0\nSpeculation_Store_Bypass:\tvulnerable\n"),
     CASE_2,
     "permitted 0000000000002000 0000000000000000\ninheritable 0000000000002000 0000000000000000\neffective 0000000000002000 0000000000000000\n"
     "bounding 000001ffffffffff ffffffffffffffff\nambient 0000000000002000 0000000000000000\n" LAST},
};

#endif
