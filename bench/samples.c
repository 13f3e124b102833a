/*
 * Checks the file of `vmx_bench samples FILE` against the bit fields of a C compiler.
 *
 * The structures below restate the layouts of Linux's vmxnet3_defs.h as fields and widths, in this project's own
 * words, for a little-endian machine. Each line of words is read both ways: the words as fields, and the fields as
 * words. The image is read as the structures that a driver shares with its device. Ends with status 0 where all
 * agrees and every structure has its number of lines.
 */
#include <inttypes.h>
#include <stddef.h>
#include <stdint.h>
#include <stdio.h>
#include <stdlib.h>
#include <string.h>

struct tx_desc {
    uint64_t addr;
    uint32_t len : 14, gen : 1, unnamed : 1, dtype : 1, ext1 : 1, msscof : 14;
    uint32_t hlen : 10, om : 2, eop : 1, cq : 1, ext2 : 1, ti : 1, tci : 16;
};

struct tx_comp {
    uint32_t txd_idx : 12, unnamed0 : 20;
    uint32_t unnamed1;
    uint32_t unnamed2;
    uint32_t unnamed3 : 24, type : 7, gen : 1;
};

struct rx_desc {
    uint64_t addr;
    uint32_t len : 14, btype : 1, dtype : 1, unnamed2 : 15, gen : 1;
    uint32_t unnamed3;
};

struct rx_comp {
    uint32_t rxd_idx : 12, unnamed0 : 2, eop : 1, sop : 1, rq_id : 10, rss_type : 4, cnc : 1, unnamed1 : 1;
    uint32_t rss_hash;
    uint32_t len : 14, err : 1, ts : 1, tci : 16;
    uint32_t csum : 16, tuc : 1, udp : 1, tcp : 1, ipc : 1, v6 : 1, v4 : 1, frg : 1, fcs : 1, type : 7, gen : 1;
};

_Static_assert(sizeof(struct tx_desc) == 16 && sizeof(struct tx_comp) == 16, "two words");
_Static_assert(sizeof(struct rx_desc) == 16 && sizeof(struct rx_comp) == 16, "two words");

#define EACH_TX_DESC(F) \
    F(addr) F(len) F(gen) F(dtype) F(ext1) F(msscof) F(hlen) F(om) F(eop) F(cq) F(ext2) F(ti) F(tci)
#define EACH_TX_COMP(F) F(txd_idx) F(type) F(gen)
#define EACH_RX_DESC(F) F(addr) F(len) F(btype) F(dtype) F(gen)
#define EACH_RX_COMP(F) \
    F(rxd_idx) F(eop) F(sop) F(rq_id) F(rss_type) F(cnc) F(rss_hash) F(len) F(err) F(ts) F(tci) \
    F(csum) F(tuc) F(udp) F(tcp) F(ipc) F(v6) F(v4) F(frg) F(fcs) F(type) F(gen)

#define READ(field) fields[count++] = seen.field;
#define WRITE(field) made.field = fields[count++];
/* From two words to fields, and from fields to two words; both give the number of fields. */
#define READER(name, EACH) \
    static int read_##name(const uint64_t words[2], uint64_t *fields) \
    { \
        struct name seen; \
        int count = 0; \
        memcpy(&seen, words, sizeof seen); \
        EACH(READ) \
        return count; \
    } \
    static int write_##name(const uint64_t *fields, uint64_t words[2]) \
    { \
        struct name made; \
        int count = 0; \
        memset(&made, 0, sizeof made); \
        EACH(WRITE) \
        memcpy(words, &made, sizeof made); \
        return count; \
    }
READER(tx_desc, EACH_TX_DESC)
READER(tx_comp, EACH_TX_COMP)
READER(rx_desc, EACH_RX_DESC)
READER(rx_comp, EACH_RX_COMP)

struct kind {
    const char *name;
    int (*read)(const uint64_t words[2], uint64_t *fields);
    int (*write)(const uint64_t *fields, uint64_t words[2]);
    int lines_wanted, lines_seen;
};

/* Each field at three values, with all others at their least and at their greatest. */
static struct kind kinds[] = {
    {"TxDesc", read_tx_desc, write_tx_desc, 13 * 6, 0},
    {"TxComp", read_tx_comp, write_tx_comp, 2 * 6, 0},
    {"RxDesc", read_rx_desc, write_rx_desc, 5 * 6, 0},
    {"RxComp", read_rx_comp, write_rx_comp, 21 * 6, 0},
};

struct shared_head {
    uint32_t magic, pad0;
    uint32_t version, gos, revisions, upt_versions;
    uint64_t features, dd_pa, queues_pa;
    uint32_t dd_len, queues_len, mtu;
    uint16_t max_rx_sg;
    uint8_t tx_queues, rx_queues;
    uint32_t unnamed0[4];
    uint8_t auto_mask, interrupts, event_interrupt, levels[25];
    uint32_t interrupt_ctrl, unnamed1[2];
    uint32_t mode;
    uint16_t table_len, pad1;
    uint64_t table_pa;
    uint32_t vlans[128];
    struct {
        uint32_t version, len;
        uint64_t pa;
    } rss, pm, plugin;
    uint32_t events, unnamed2[5];
} __attribute__((packed));
_Static_assert(offsetof(struct shared_head, mtu) == 56 && offsetof(struct shared_head, auto_mask) == 80, "");
_Static_assert(offsetof(struct shared_head, mode) == 120 && offsetof(struct shared_head, vlans) == 136, "");
_Static_assert(offsetof(struct shared_head, rss) == 648 && sizeof(struct shared_head) == 720, "");

struct queue_desc {
    uint8_t ctrl[16];
    uint64_t ring_pa, other_pa, comp_pa, dd_pa, rx_data_pa;
    uint32_t size, other_size, comp_size, dd_len;
    uint8_t interrupt, pad0;
    uint16_t rx_data_entry;
    uint8_t pad1[4];
    uint8_t stopped, pad2[3];
    uint32_t error;
    uint64_t counts[10];
    uint8_t pad3[88];
} __attribute__((packed));
_Static_assert(offsetof(struct queue_desc, rx_data_pa) == 48 && offsetof(struct queue_desc, rx_data_entry) == 74, "");
_Static_assert(offsetof(struct queue_desc, counts) == 88 && sizeof(struct queue_desc) == 256, "");

static int faults;

static void fault(const char *what, uint64_t wanted, uint64_t found)
{
    if (faults++ < 20)
        printf("%s: wanted %" PRIx64 ", found %" PRIx64 "\n", what, wanted, found);
}

static void same(const char *what, uint64_t wanted, uint64_t found)
{
    if (wanted != found)
        fault(what, wanted, found);
}

/* The image of the default settings; or of the same with data rings, tags taken out and checksums. */
static void check_image(const char *hex, int with_data)
{
    static uint8_t bytes[8192];
    struct shared_head head;
    struct queue_desc tx, rx;
    size_t digits = strspn(hex, "0123456789abcdef");
    same("digits of the image", 2 * sizeof bytes, digits);
    for (size_t at = 0; at < sizeof bytes && 2 * at + 1 < digits; at++) {
        char pair[3] = {hex[2 * at], hex[2 * at + 1], 0};
        bytes[at] = (uint8_t)strtoul(pair, NULL, 16);
    }
    memcpy(&head, bytes, sizeof head);
    memcpy(&tx, bytes + 1024, sizeof tx);
    memcpy(&rx, bytes + 1280, sizeof rx);
    same("magic", 0xbabefee1, head.magic);
    same("revisions", 1, head.revisions);
    same("upt_versions", 1, head.upt_versions);
    same("features", with_data ? 5 : 0, head.features);
    same("queues_pa", 0x10400, head.queues_pa);
    same("queues_len", 512, head.queues_len);
    same("mtu", 1500, head.mtu);
    same("max_rx_sg", 16, head.max_rx_sg);
    same("tx_queues", 1, head.tx_queues);
    same("rx_queues", 1, head.rx_queues);
    same("auto_mask", 1, head.auto_mask);
    same("interrupts", 3, head.interrupts);
    same("event_interrupt", 2, head.event_interrupt);
    same("mode", 7, head.mode);
    same("table_len", 0, head.table_len);
    for (int word = 0; word < 128; word++)
        same("vlans", 0xffffffff, head.vlans[word]);
    same("rss.len", 0, head.rss.len);
    same("events", 0, head.events);
    same("tx.ring_pa", 0x10000000, tx.ring_pa);
    same("tx.other_pa", with_data ? 0x10020000 : 0, tx.other_pa);
    same("tx.comp_pa", 0x10010000, tx.comp_pa);
    same("tx.size", 512, tx.size);
    same("tx.other_size", with_data ? 512 : 0, tx.other_size);
    same("tx.comp_size", 512, tx.comp_size);
    same("tx.interrupt", 0, tx.interrupt);
    same("rx.ring_pa", 0x20000000, rx.ring_pa);
    same("rx.other_pa", 0x20010000, rx.other_pa);
    same("rx.comp_pa", 0x20020000, rx.comp_pa);
    same("rx.rx_data_pa", with_data ? 0x20040000 : 0, rx.rx_data_pa);
    same("rx.rx_data_entry", with_data ? 128 : 0, rx.rx_data_entry);
    same("rx.size", 256, rx.size);
    same("rx.other_size", 256, rx.other_size);
    same("rx.comp_size", 512, rx.comp_size);
    same("rx.interrupt", 1, rx.interrupt);
}

static void check_words(struct kind *kind, char *rest)
{
    uint64_t words[2], fields[32], read[32], made[2];
    int count = 0, wanted;
    char *end;
    for (int w = 0; w < 2; w++, rest = end)
        words[w] = strtoull(rest, &end, 16);
    for (;; rest = end) {
        uint64_t field = strtoull(rest, &end, 16);
        if (end == rest || count == 32)
            break;
        fields[count++] = field;
    }
    wanted = kind->read(words, read);
    same(kind->name, wanted, count);
    if (wanted != count)
        return;
    for (int f = 0; f < count; f++)
        same(kind->name, read[f], fields[f]);
    kind->write(fields, made);
    same(kind->name, made[0], words[0]);
    same(kind->name, made[1], words[1]);
    kind->lines_seen++;
}

int main(int argc, char **argv)
{
    static char line[20000];
    int images = 0, others = 0, lines = 0;
    FILE *file = argc == 2 ? fopen(argv[1], "r") : NULL;
    if (!file) {
        fprintf(stderr, "usage: samples FILE\n");
        return 2;
    }
    while (fgets(line, sizeof line, file)) {
        size_t length = strcspn(line, " ");
        struct kind *found = NULL;
        for (size_t k = 0; k < sizeof kinds / sizeof kinds[0]; k++)
            if (strlen(kinds[k].name) == length && !strncmp(line, kinds[k].name, length))
                found = &kinds[k];
        lines++;
        if (found)
            check_words(found, line + length);
        else if (!strncmp(line, "Image ", 6) && ++images)
            check_image(line + 6, 0);
        else if (!strncmp(line, "DataImage ", 10) && ++images)
            check_image(line + 10, 1);
        else
            others++;
    }
    fclose(file);
    same("images", 2, images);
    same("lines of another kind", 0, others);
    for (size_t k = 0; k < sizeof kinds / sizeof kinds[0]; k++)
        same(kinds[k].name, kinds[k].lines_wanted, kinds[k].lines_seen);
    printf("%d lines, %d differences\n", lines, faults);
    return faults != 0;
}
