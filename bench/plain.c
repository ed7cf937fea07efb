/* The published test of document 01 in plain C, slot by slot, to time `judge` against. It reads the same text and prints the same answers.
   The kit's compiler has no headers, so the two system calls' wrappers are declared here. */
typedef unsigned short u16;
typedef unsigned long size;

long read(int fd, void *buffer, size n);
long write(int fd, const void *buffer, size n);

enum { JOBS = 64, LIMIT = 4096 };

typedef struct { u16 arrival, deadline, level, lo, hi; } Job;

static char text[4096];
static long length, at;
static Job jobs[JOBS];
static u16 order[2][JOBS];
static int n, count[2];
static char out[2048];
static long end;

static void put(char c) { out[end++] = c; }

static void word(const char *w) { while (*w) put(*w++); }

static void number(long x) {
    char digits[20];
    int k = 0;
    if (x < 0) { put('-'); x = -x; }
    do { digits[k++] = (char)('0' + x % 10); x /= 10; } while (x);
    while (k) put(digits[--k]);
}

static int flush(void) { return write(1, out, (size)end) == end ? 0 : 1; }

static int refuse(int which, long place) {
    word("REFUSED ");
    number(which);
    put(' ');
    number(place);
    put('\n');
    return flush();
}

/* A number from least to most and the byte behind it; 0 where the text has none here, with `at` at the first byte that does not fit. */
static int field(long least, long most, char behind, long *value) {
    long x;
    if (at >= length || text[at] < '0' || text[at] > '9') return 0;
    x = text[at] - '0';
    if (x < least || x > most) return 0;
    at++;
    while (at < length && text[at] != behind) {
        long y = x * 10 + (text[at] - '0');
        if (text[at] < '0' || text[at] > '9' || x == 0 || y > most) return 0;
        x = y;
        at++;
    }
    if (at >= length) return 0;
    at++;
    *value = x;
    return 1;
}

static int given(long x) {
    char digits[4];
    int k = 0;
    do { digits[k++] = (char)('0' + x % 10); x /= 10; } while (x);
    while (k) if (at >= length || text[at] != digits[--k]) return 0; else at++;
    if (at >= length || text[at] != '\n') return 0;
    at++;
    return 1;
}

static int read_plan(void) {
    long x;
    int i, k, m, hi = 0;
    if (!field(1, JOBS, '\n', &x)) return 0;
    n = (int)x;
    for (i = 0; i < n; i++) {
        long v[5];
        for (k = 0; k < 5; k++) if (!field(0, k == 2 ? 1 : 65535, k == 4 ? '\n' : ' ', &v[k])) return 0;
        jobs[i] = (Job){(u16)v[0], (u16)v[1], (u16)v[2], (u16)v[3], (u16)v[4]};
        hi += (int)v[2];
    }
    count[0] = n;
    count[1] = hi;
    for (m = 0; m < 2; m++) {
        if (!given(count[m])) return 0;
        for (i = 0; i < count[m]; i++) {
            if (!field(0, 65535, i == count[m] - 1 ? '\n' : ' ', &x)) return 0;
            order[m][i] = (u16)x;
        }
    }
    return at == length;
}

static int fault(int m) {
    int i, k;
    for (i = 0; i < count[m]; i++) {
        int x = order[m][i];
        if (x < 1 || x > n || (m == 1 && !jobs[x - 1].level)) return i + 1;
        for (k = 0; k < i; k++) if (order[m][k] == x) return i + 1;
    }
    return 0;
}

static long span(void) {
    long latest = 0, work = 0;
    int i;
    for (i = 0; i < n; i++) {
        if (jobs[i].arrival > latest) latest = jobs[i].arrival;
        work += jobs[i].hi;
    }
    return latest + work;
}

/* One run to the span: each job's finish, 0 for a dropped one. Answers whether it switched. */
static int run(const u16 *times, long slots, u16 *finish) {
    u16 had[JOBS];
    int i, mode = 0;
    long t;
    for (i = 0; i < n; i++) had[i] = finish[i] = 0;
    for (t = 0; t < slots; t++) {
        if (!mode)
            for (i = 0; i < n; i++)
                if (jobs[i].level && had[i] == jobs[i].lo && times[i] > had[i]) { mode = 1; break; }
        for (i = 0; i < count[mode]; i++) {
            int j = order[mode][i] - 1;
            if (jobs[j].arrival <= t && had[j] < times[j]) {
                if (++had[j] == times[j]) finish[j] = (u16)(t + 1);
                break;
            }
        }
    }
    return mode;
}

int main(void) {
    static u16 ends[JOBS], finish[JOBS], worst[JOBS], times[JOBS];
    long slots, got;
    int i, x;
    while (length < (long)sizeof text && (got = read(0, text + length, sizeof text - (size)length)) > 0) length += got;
    if (!read_plan()) return refuse(1, at);
    for (i = 0; i < n; i++) if (jobs[i].deadline <= jobs[i].arrival) return refuse(3, i + 1);
    for (i = 0; i < n; i++)
        if (jobs[i].lo < 1 || (jobs[i].level ? jobs[i].hi <= jobs[i].lo : jobs[i].hi != jobs[i].lo)) return refuse(4, i + 1);
    slots = span();
    if (slots > LIMIT) return refuse(5, slots);
    if ((i = fault(0))) return refuse(6, i);
    if ((i = fault(1))) return refuse(7, i);
    for (x = 0; x <= n; x++) {
        int switched;
        if (x && !jobs[x - 1].level) continue;
        for (i = 0; i < n; i++)
            times[i] = x && jobs[i].level && (i + 1 == x || ends[i] > ends[x - 1]) ? jobs[i].hi : jobs[i].lo;
        switched = run(times, slots, finish);
        for (i = 0; i < n; i++) {
            if (finish[i] > jobs[i].deadline && (!switched || jobs[i].level)) {
                word("UNFIT ");
                number(x); put(' '); number(i + 1); put(' '); number(finish[i]); put('\n');
                for (i = 0; i < n; i++) { number(times[i]); put(i == n - 1 ? '\n' : ' '); }
                return flush();
            }
            if (!x) ends[i] = finish[i];
            if ((!x || jobs[i].level) && finish[i] > worst[i]) worst[i] = finish[i];
        }
    }
    word("FIT ");
    number(slots);
    put('\n');
    for (i = 0; i < n; i++) { number(i + 1); put(' '); number(worst[i]); put(' '); number((long)jobs[i].deadline - worst[i]); put('\n'); }
    return flush();
}
