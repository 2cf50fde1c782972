/*
 * Makes the first inputs of the corpus in the folder that it is given: one for each function and refusal, and for each situation of lanes and frames. The
 * fuzzer starts from these; it could not find most of them by itself, for it does not see inside the archive.
 */
#include <branmuslin.h>
#include <stdio.h>
#include <string.h>

/* The first octet of an input: what it picks. 80 is added where the wall is to stand in front. */
#define READ "00"
#define WRITE_SPACE "01"
#define WRITE_ENCAPSULATION "02"
#define WRITE_RECORD "03"
#define READ_RECORD "04"
#define READ_FILE "05"
#define RUN "06 00"
#define FRAMES "08 00"
#define BEHIND(pick) "8" pick

/* Output space: exactly what is needed, an octet less, an octet more, or so many. */
#define EXACT " 40"
#define SHORT " 3F"
#define MORE " 41"
#define SPACE(number) " 80" number

/* Calls of a run. A fitting packet has flags, a step of its count (00 the next, FF a repeat), and so many octets of user data. */
#define OPEN(lane, apid, secondary, share, cap) " 00" lane "0007" apid secondary share cap
#define CLOSE(lane, space) " 01" lane space
#define RAW(lane, length, octets) " 02" lane SPACE("010000") length octets
#define FITTING(lane, flags, step, user, space) " 03" lane flags step user space "05"
#define OTHER_POOL(length, call) " 04" length call
#define CHANGED(at, octet, call) " 05 00" at octet call
#define CHANGED_TWICE(at, octet, at2, octet2, call) " 05 01" at octet at2 octet2 call
#define KEEP " 06"
#define GO_BACK " 07"

/* Calls with frames. The next one of a source has a step of its count (00 the next, FF a repeat), a step beside the right pointer, its octets, and those
   over 7 of the packets that begin in it. A state is whether a frame came before, its count, the piece's octets, and as many at its front. */
#define NEXT_FRAME(step, beside, length, size) " 01" step beside length size EXACT "05"
#define RAW_FRAME(count, pointer, space, length, octets) " 00 0000" count "0000" pointer space length octets
#define OTHER_BUFFER(length, call) " 02" length call
#define STATE(started, count, piece, length, octets) " 03" started count piece "00" length octets

#define CONTINUATION "00"
#define FIRST "01"
#define LAST "02"
#define WHOLE "03"

#define LANE_0 OPEN("00", "002A", "00", "04", "08")
#define GROUP_OF_300 LANE_0 FITTING("00", FIRST, "00", "00012C", EXACT)
#define NEXT FITTING("00", CONTINUATION, "00", "000001", EXACT)
#define OVER_40_BLOCKS FITTING("00", FIRST, "00", "002801", EXACT)
#define POSSIBLE "0007 002A 00000002 00000003 00000001 00000000"
#define IMPOSSIBLE "0000 002A 00000BB8 000000D4 00000000 00000000"

struct seed {
    const char *name, *octets;
};

/* To read: some times a length, and as many octets. */
static const struct seed packets[] = {
    {"read-0-space", READ "000009 002AC0050001AABB77"},
    {"read-0-encapsulation", BEHIND("0") "000009 FB5F000000000009 88"},
    {"read-0-longest", READ "010006 1FFEFFFFFFFF"},
    {"read-1", READ "000007 002AC0050001AA 000002 002A 000000"},
    {"read-2", BEHIND("0") "000001 20"},
    {"read-3", READ "000007 0FFFC000000000"},
    {"read-4", BEHIND("0") "000002 E901 000004 EA000003 000008 EB00000000000007"},
    {"read-5", READ "000008 EB00000000010007"},
    {"read-6", READ "000001 E4"},
    {"read-7", BEHIND("0") "000003 F90300 000005 EA13000555 000009 EB0001000000000955 000009 EB0000010000000955 000009 EB0300010000000955"},
    {"write-space-0", WRITE_SPACE "00000000 00000001 0000002A 00000003 00000005 000002" MORE "AABB"},
    {"write-space-0-longest", BEHIND("1") "00000001 00000000 000007FF 00000000 00003FFF 010000" EXACT},
    {"write-space-3", WRITE_SPACE "00000000 00000001 000007FF 00000003 00000005 000002" EXACT "AABB"},
    {"write-space-8", WRITE_SPACE "00000000 00000000 00000800 00000003 00000005 000002" EXACT "AABB"},
    {"write-space-9", BEHIND("1") "00000000 00000000 0000002A 00000003 00000005 000002" SHORT "AABB"},
    {"write-space-10", WRITE_SPACE "00000000 00000000 0000002A 00000003 00000005 000000" EXACT},
    {"write-encapsulation-0", WRITE_ENCAPSULATION "00000002 00000000 00000000 0000FE" MORE "112233"},
    {"write-encapsulation-0-longest", BEHIND("2") "00000006 00000005 0000000F 00FFFE" EXACT},
    {"write-encapsulation-6", WRITE_ENCAPSULATION "00000001 00000000 00000000 000000" EXACT},
    {"write-encapsulation-7", WRITE_ENCAPSULATION "00000002 00000000 00000001 000001" EXACT "55"},
    {"write-encapsulation-8", WRITE_ENCAPSULATION "00000006 00000010 00000001 000001" EXACT "55"},
    {"write-encapsulation-9", BEHIND("2") "00000002 00000000 00000000 000003" SHORT "112233"},
    {"write-encapsulation-10", WRITE_ENCAPSULATION "00000002 00000000 00000000 00FFFF" MORE},
};

static const struct seed records[] = {
    {"write-record-0", WRITE_RECORD POSSIBLE MORE},
    {"write-record-9", BEHIND("3") POSSIBLE SHORT},
    {"write-record-25", WRITE_RECORD IMPOSSIBLE EXACT},
    {"read-record-0", READ_RECORD "14" POSSIBLE},
    {"read-record-25", BEHIND("4") "14" IMPOSSIBLE},
    {"read-record-26", READ_RECORD "13" POSSIBLE},
    {"read-file-0", READ_FILE "000028" POSSIBLE POSSIBLE},
    {"read-file-25", BEHIND("5") "00003C" POSSIBLE IMPOSSIBLE IMPOSSIBLE},
    {"read-file-26", READ_FILE "000027" POSSIBLE POSSIBLE},
};

static const struct seed runs[] = {
    {"open-11-21-22", RUN OPEN("08", "002A", "00", "04", "08") OPEN("FF", "002A", "00", "04", "08") LANE_0 LANE_0 OPEN("01", "07FF", "00", "04", "08")
                          OPEN("01", "002A", "40", "04", "08") OPEN("01", "002A", "00", "09", "08") OPEN("01", "002A", "00", "04", "41")},
    {"open-23", BEHIND("6") "00" OPEN("00", "002A", "00", "28", "28") OPEN("01", "002A", "00", "19", "40") OPEN("01", "002A", "00", "18", "40")},
    {"take-units-20", BEHIND("6") "00" GROUP_OF_300 FITTING("00", CONTINUATION, "00", "0000D4", EXACT) NEXT FITTING("00", LAST, "00", "000010", SHORT)
                          FITTING("00", LAST, "00", "000010", MORE) FITTING("00", WHOLE, "00", "000064", MORE) FITTING("00", WHOLE, "00", "000001", EXACT)},
    {"take-repeat-and-stray", RUN GROUP_OF_300 FITTING("00", CONTINUATION, "FF", "000001", EXACT) FITTING("00", LAST, "03", "000001", EXACT) NEXT},
    {"take-given-up", RUN GROUP_OF_300 FITTING("00", FIRST, "00", "000401", EXACT) FITTING("00", WHOLE, "00", "000001", EXACT)},
    {"take-from-16383-to-0", RUN LANE_0 RAW("00", "000007", "002A7FFF000055") FITTING("00", LAST, "00", "000001", EXACT)},
    {"take-secondary", BEHIND("6") "00" OPEN("00", "002A", "04", "00", "01") FITTING("00", FIRST, "00", "000000", EXACT)
                           FITTING("00", CONTINUATION, "00", "000100", EXACT) FITTING("00", LAST, "00", "000000", EXACT)},
    {"take-longest", RUN OPEN("00", "002A", "00", "40", "40") FITTING("00", FIRST, "00", "004000", EXACT) FITTING("00", LAST, "00", "010000", EXACT)},
    {"take-1-to-7", RUN LANE_0 RAW("00", "000000", "") RAW("00", "000001", "20") RAW("00", "000007", "0FFFC000000000") RAW("00", "000002", "E901")
                        RAW("00", "000008", "EB00000000010007") RAW("00", "000001", "E4") RAW("00", "000003", "F90300") RAW("00", "000002", "002A")
                            RAW("00", "000004", "EA000003") RAW("00", "000008", "EB00000000000007") RAW("00", "000005", "EA13000555")
                                RAW("00", "000009", "EB0001000000000955") RAW("00", "000009", "EB0000010000000955")
                                    RAW("00", "000009", "EB0300010000000955")},
    {"take-11-to-17", RUN NEXT LANE_0 RAW("00", "000008", "002AC00500005577") RAW("00", "000001", "E0") RAW("00", "000007", "102AC005000055")
                          RAW("00", "000007", "002BC005000055") RAW("00", "000007", "082AC005000055") RAW("80", "000007", "002AC005000055")
                              OPEN("01", "002A", "04", "04", "08") RAW("01", "000009", "082AC0050002556677") RAW("01", "000007", "002AC005000055")},
    {"take-19-27", RUN OPEN("00", "002A", "00", "14", "28") OPEN("01", "002B", "00", "14", "40") FITTING("01", FIRST, "00", "002C01", EXACT)
                       FITTING("01", FIRST, "00", "002C00", EXACT) FITTING("00", FIRST, "00", "001401", EXACT) OVER_40_BLOCKS
                           FITTING("00", FIRST, "00", "001400", EXACT) NEXT CLOSE("01", EXACT) OVER_40_BLOCKS NEXT},
    {"close", RUN GROUP_OF_300 CLOSE("00", SHORT) CLOSE("00", EXACT) CLOSE("00", EXACT) LANE_0 CLOSE("00", MORE) CLOSE("08", EXACT)},
    {"other-pool-24", RUN GROUP_OF_300 OTHER_POOL("3FFF", NEXT) OTHER_POOL("4001", CLOSE("00", EXACT)) OTHER_POOL("0000", LANE_0) NEXT},
    {"changed-lane-24", RUN GROUP_OF_300 CHANGED("0008", "41", NEXT) CHANGED_TWICE("0004", "FF", "0005", "07", NEXT) CHANGED("0006", "40", NEXT)
                            CHANGED("0007", "09", NEXT) CHANGED_TWICE("001C", "00", "001D", "40", NEXT) CHANGED("000C", "02", NEXT)
                                CHANGED("0014", "01", NEXT) CHANGED("0018", "01", NEXT) CHANGED("0000", "00", NEXT) CHANGED("0010", "00", NEXT)},
    {"changed-blocks-24", RUN GROUP_OF_300 CHANGED("0021", "00", NEXT) CHANGED("0021", "02", NEXT) CHANGED("001E", "00", NEXT) CHANGED("0122", "00", NEXT)
                              CHANGED("0125", "00", NEXT) CHANGED("0124", "01", NEXT) CHANGED("0124", "FF", NEXT) CHANGED("0120", "40", NEXT)
                                  CHANGED("0044", "01", NEXT) CHANGED_TWICE("0122", "00", "0123", "02", NEXT) NEXT},
    {"keep-and-go-back", RUN GROUP_OF_300 KEEP FITTING("00", LAST, "00", "000064", EXACT) FITTING("00", FIRST, "00", "000200", EXACT) GO_BACK NEXT},
};

#define IDLE_PACKETS "E0E0E0E0E0E0E0E0"
#define A_PACKET "002AC0050001AABB"
/* A packet of 39 octets of which 20 are in the first frame, whose count is 1. */
#define BEGUN NEXT_FRAME("00", "00", "0014", "0020")
#define REST_OF_IT "E0E0E0" IDLE_PACKETS IDLE_PACKETS

static const struct seed frames[] = {
    {"frames-whole", FRAMES NEXT_FRAME("00", "00", "07FE", "003F") NEXT_FRAME("00", "00", "07FE", "0000") NEXT_FRAME("00", "00", "0008", "0001")},
    {"frames-across", "88 00" NEXT_FRAME("00", "00", "045B", "0FFF") NEXT_FRAME("00", "00", "045B", "0FFF") NEXT_FRAME("00", "00", "045B", "0FFF")
                          NEXT_FRAME("00", "00", "045B", "0FFF") NEXT_FRAME("00", "00", "045B", "0010") NEXT_FRAME("00", "00", "0009", "0010")},
    {"frames-cut-header", FRAMES NEXT_FRAME("00", "00", "0013", "0009") NEXT_FRAME("00", "00", "0008", "0009") NEXT_FRAME("00", "00", "0009", "0009")
                              NEXT_FRAME("00", "00", "0014", "0009")},
    {"frames-repeat", FRAMES BEGUN NEXT_FRAME("FF", "00", "0014", "0020") RAW_FRAME("0001", "07FE", EXACT, "000008", IDLE_PACKETS)
                          RAW_FRAME("0002", "07FF", MORE, "000008", IDLE_PACKETS)},
    {"frames-gap", FRAMES BEGUN NEXT_FRAME("01", "00", "0020", "0020") NEXT_FRAME("00", "00", "0020", "0020") NEXT_FRAME("80", "00", "0030", "0020")},
    {"frames-from-255-to-0", FRAMES STATE("01", "FF", "0006", "0006", "002AC0050001") RAW_FRAME("0000", "0002", EXACT, "00000A", "AABB" IDLE_PACKETS)},
    {"frames-idle", "88 00" BEGUN RAW_FRAME("0002", "07FE", EXACT, "000013", REST_OF_IT) RAW_FRAME("0003", "07FE", EXACT, "000008", IDLE_PACKETS)
                        RAW_FRAME("0004", "0000", EXACT, "000008", A_PACKET) RAW_FRAME("0005", "07FE", EXACT, "0007FE", "")},
    {"frames-contradict", FRAMES BEGUN RAW_FRAME("0002", "0000", EXACT, "000008", A_PACKET) BEGUN NEXT_FRAME("00", "01", "0020", "0000") BEGUN
                              NEXT_FRAME("00", "FF", "0020", "0000") BEGUN RAW_FRAME("0007", "07FF", EXACT, "000020", "")},
    {"frames-not-begun", FRAMES RAW_FRAME("0009", "07FF", EXACT, "000008", A_PACKET) RAW_FRAME("000A", "0003", EXACT, "00000B", "000000" A_PACKET)},
    {"frames-dropped", FRAMES RAW_FRAME("0000", "0000", EXACT, "000011", A_PACKET "20" A_PACKET)
                           RAW_FRAME("0001", "0000", EXACT, "000012", A_PACKET "E901" A_PACKET) BEGUN
                               RAW_FRAME("0004", "0008", EXACT, "000011", A_PACKET "F8" A_PACKET)},
    {"frames-longest", FRAMES NEXT_FRAME("00", "00", "07FE", "1FF9") NEXT_FRAME("00", "00", "07FE", "0000") NEXT_FRAME("00", "00", "07FE", "0000")
                           NEXT_FRAME("00", "00", "07FE", "0000") NEXT_FRAME("00", "00", "07FE", "0003")},
    {"frames-over-longest", FRAMES NEXT_FRAME("00", "00", "07FE", "1FFA") RAW_FRAME("0002", "0000", EXACT, "00000D", IDLE_PACKETS "002AC0051F")
                                RAW_FRAME("0003", "07FF", EXACT, "000008", "FA00000000000000") RAW_FRAME("0004", "0000", EXACT, "00000E", IDLE_PACKETS "002AC0051FFA")
                                    STATE("01", "05", "1FFF", "0006", "002AC0051FFA") RAW_FRAME("0006", "0002", EXACT, "00000A", "0000" IDLE_PACKETS)},
    {"frames-encapsulation", FRAMES RAW_FRAME("0000", "0000", EXACT, "00000C", IDLE_PACKETS "EA002000")
                                 RAW_FRAME("0001", "0000", EXACT, "00000C", IDLE_PACKETS "EA002001")
                                     RAW_FRAME("0002", "0000", EXACT, "000010", IDLE_PACKETS "EB00000000002001")
                                         RAW_FRAME("0003", "0000", EXACT, "000010", IDLE_PACKETS "EB00000000002000")
                                             RAW_FRAME("0004", "0000", EXACT, "00000E", IDLE_PACKETS "EB0000000000")
                                                 RAW_FRAME("0005", "0003", EXACT, "00000B", "000955" IDLE_PACKETS)},
    {"frames-other-piece", "88 00" STATE("01", "05", "1FFF", "0006", "002AC0051FF9") RAW_FRAME("0006", "0001", EXACT, "000009", IDLE_PACKETS "E0")
                               STATE("00", "05", "0008", "0008", A_PACKET) RAW_FRAME("0005", "0000", EXACT, "000008", IDLE_PACKETS)
                                   STATE("01", "05", "0003", "0003", "202020") RAW_FRAME("0006", "07FF", EXACT, "000008", IDLE_PACKETS)},
    {"frames-28", FRAMES BEGUN RAW_FRAME("0002", "07FF", EXACT, "000007", "E0E0E0E0E0E0E0") RAW_FRAME("0100", "07FF", EXACT, "000008", IDLE_PACKETS)
                      RAW_FRAME("0102", "07FF", EXACT, "000008", IDLE_PACKETS) RAW_FRAME("0002", "0008", EXACT, "000008", IDLE_PACKETS)
                          RAW_FRAME("0002", "0800", SHORT, "000008", IDLE_PACKETS) OTHER_BUFFER("1FFF", BEGUN) OTHER_BUFFER("2001", BEGUN)
                              RAW_FRAME("00FF", "0007", EXACT, "000008", IDLE_PACKETS) RAW_FRAME("0000", "07FF", EXACT, "0007FF", "")},
    {"frames-28-piece", FRAMES STATE("01", "01", "2000", "0000", "") BEGUN STATE("01", "01", "1FFF", "0000", "") BEGUN " 03 01 01 0001 20 0000" BEGUN},
    {"frames-9", "88 00" BEGUN RAW_FRAME("0002", "07FF", SHORT, "000008", A_PACKET) RAW_FRAME("0001", "07FF", SPACE("000000"), "000008", A_PACKET)},
};

static const char *folder;

static FILE *begin(const char *name)
{
    char path[4096];
    snprintf(path, sizeof path, "%s/%s", folder, name);
    FILE *const file = fopen(path, "wb");
    if (!file)
        perror(path);
    return file;
}

/* Octets as two digits each; spaces between them say nothing. */
static void put(FILE *file, const char *text)
{
    for (unsigned octet; sscanf(text, " %2x", &octet) == 1; text += 2) {
        fputc((int)octet, file);
        text += strspn(text, " ");
    }
}

static int make(const struct seed *seeds, size_t count)
{
    for (size_t i = 0; i < count; i++) {
        FILE *const file = begin(seeds[i].name);
        if (!file)
            return 1;
        put(file, seeds[i].octets);
        if (fclose(file) != 0)
            return 1;
    }
    return 0;
}

/* A sound state: lane 0 has an open group of 300 octets in blocks 63 and 2, an order that no run from a fresh start leads to so soon. */
static struct branmuslin_state a_state(uint32_t packets)
{
    struct branmuslin_state s;
    memset(&s, 0, sizeof s);
    s.lanes[0].opened = true;
    s.lanes[0].settings.apid = 42;
    s.lanes[0].settings.cap = 8;
    s.lanes[0].packets = packets;
    s.lanes[0].missing = 5;
    s.lanes[0].last = 16383;
    s.lanes[0].grouped = true;
    s.lanes[0].octets = 300;
    for (size_t block = 0; block < BRANMUSLIN_BLOCKS; block++)
        s.marks[block] = 512;
    s.marks[63] = 0;
    s.marks[2] = 1;
    return s;
}

/* An input that is a state, octet for octet as it lies in memory, and then a call. */
static int make_state(const char *name, struct branmuslin_state s, const char *call)
{
    FILE *const file = begin(name);
    if (!file)
        return 1;
    put(file, "07");
    fwrite(&s, 1, sizeof s, file);
    put(file, call);
    return fclose(file) != 0;
}

#define MAKE(seeds) make(seeds, sizeof(seeds) / sizeof *(seeds))

int main(int count, char **arguments)
{
    if (count != 2) {
        fprintf(stderr, "usage: seeds FOLDER\n");
        return 2;
    }
    folder = arguments[1];
    struct branmuslin_state unsound = a_state(9);
    unsound.marks[7] = 1;
    return MAKE(packets) || MAKE(records) || MAKE(runs) || MAKE(frames) || make_state("state-take", a_state(9), FITTING("00", LAST, "00", "000001", EXACT)) ||
           make_state("state-take-18", a_state(BRANMUSLIN_MOST_PACKETS), NEXT) || make_state("state-close", a_state(9), CLOSE("00", EXACT)) ||
           make_state("state-open", a_state(9), OPEN("01", "002A", "00", "3E", "40")) ||
           make_state("state-close-24", unsound, CLOSE("00", EXACT));
}
