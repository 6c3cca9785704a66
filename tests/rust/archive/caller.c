/* A C program that calls the static library: for x86-64 Linux, without a C library, so that the library is shown to need none. It
 * answers blocks of requests on its standard input, each a number of bytes (32 bits, little-endian as all here) and so many bytes of
 * requests, by blocks of answers of the same form.
 *
 * A request is: call (8 bits), 1 if the bytes are to stand against the end of their page and not its start (8 bits), eight
 * numbers (64 bits each: one whose meaning is the call's; the kind, start, end and depth of a place; whether there is a last
 * place, and its end; how many numbers are lent, at most 5), a length (32 bits), and so many bytes. An answer is six numbers of
 * 64 bits: what was answered, and the lent numbers afterwards, which are all 7 before, then 0; a call that the library does not
 * have answers ABSENT. The bytes and the lent numbers stand between pages that cannot be touched.
 *
 * The writer is lent an output of as many bytes as the first number says and as many work numbers as the end of the last place
 * says, between such pages too and all 7 before, and at most 2 numbers for its answer. The last two numbers of the answer are
 * then those that the output and the work numbers mix to (mixed, below).
 *
 * A call number of 128 more asks for the same call on a stack of its own, and the last number of the answer is then how many
 * bytes of that stack were touched. */

typedef unsigned char u8;
typedef unsigned int u32;
typedef unsigned long u64;

#define CALL extern __attribute__((weak))
CALL u32 ajuqvane_validate(u32 modes, const u8 *payload, u64 length);
CALL u32 ajuqvane_validate_with(u32 modes, const u8 *payload, u64 length, u64 *table, u64 numbers);
CALL u32 ajuqvane_varuint(const u8 *part, u64 length, u64 *answer, u64 count);
CALL u32 ajuqvane_is_text(const u8 *part, u64 length);
CALL u32 ajuqvane_are_equal(const u8 *a, u64 a_length, const u8 *b, u64 b_length);
CALL u32 ajuqvane_float32_holds(u64 bits);
CALL u64 ajuqvane_widen(u32 bits);
#define PLACE const u8 *payload, u64 length, u8 kind, u64 start, u64 end, u32 depth
CALL u32 ajuqvane_check(PLACE);
CALL u32 ajuqvane_top(const u8 *payload, u64 length, u64 *answer, u64 count);
CALL u32 ajuqvane_step(PLACE, u32 some, u64 last, u64 *answer, u64 count);
CALL u32 ajuqvane_view(PLACE, u64 *answer, u64 count);
CALL u32 ajuqvane_lookup(PLACE, const u8 *name, u64 name_length, u64 *answer, u64 count);
CALL u32 ajuqvane_double(PLACE, u64 *answer, u64 count);
CALL u32 ajuqvane_signed(PLACE, u64 *answer, u64 count);
CALL u32 ajuqvane_unsigned(PLACE, u64 *answer, u64 count);
CALL u32 ajuqvane_ticks(PLACE, u64 *answer, u64 count);
CALL u32 ajuqvane_write(const u8 *list, u64 list_length, u8 *out, u64 out_length, u32 *work, u64 work_count, u64 *answer,
                        u64 count);

#define ABSENT 0xABABABABABABABABul
#define PAGE 4096ul
/* The longest bytes of a request and the longest block. */
#define ROOM (64 * PAGE)
#define BLOCK (64ul << 20)
/* The bytes of a request before its own, and of an answer. */
#define HEAD (2 + 8 * 8 + 4ul)
#define ANSWER (6 * 8ul)
#define MOST_LENT 5ul
/* The stack that a call is measured on, and what is painted of it. */
#define STACK (2ul << 20)
#define PAINTED (1ul << 20)
#define PAINT 0x5AA5C33C69F00F96ul

void *memcpy(void *to, const void *from, u64 count) {
    for (u64 i = 0; i < count; i++) ((u8 *)to)[i] = ((const u8 *)from)[i];
    return to;
}

void *memmove(void *to, const void *from, u64 count) {
    if ((u64)to <= (u64)from) return memcpy(to, from, count);
    for (u64 i = count; i > 0; i--) ((u8 *)to)[i - 1] = ((const u8 *)from)[i - 1];
    return to;
}

void *memset(void *to, int value, u64 count) {
    for (u64 i = 0; i < count; i++) ((u8 *)to)[i] = (u8)value;
    return to;
}

int memcmp(const void *a, const void *b, u64 count) {
    for (u64 i = 0; i < count; i++)
        if (((const u8 *)a)[i] != ((const u8 *)b)[i]) return ((const u8 *)a)[i] - ((const u8 *)b)[i];
    return 0;
}

int bcmp(const void *a, const void *b, u64 count) { return memcmp(a, b, count); }

static long system_call(long number, u64 a, u64 b, u64 c, u64 d, u64 e, u64 f) {
    long answer;
    register u64 r10 __asm__("r10") = d;
    register u64 r8 __asm__("r8") = e;
    register u64 r9 __asm__("r9") = f;
    __asm__ volatile("syscall"
                     : "=a"(answer)
                     : "a"(number), "D"(a), "S"(b), "d"(c), "r"(r10), "r"(r8), "r"(r9)
                     : "rcx", "r11", "memory");
    return answer;
}

static void leave(int status) {
    for (;;) system_call(60, status, 0, 0, 0, 0, 0);
}

/* So many bytes, whole; or the program ends, well at the input's end and badly otherwise. */
static void transfer(int number, int file, u8 *bytes, u64 count) {
    for (u64 done = 0; done < count;) {
        long moved = system_call(number, file, (u64)(bytes + done), count - done, 0, 0, 0);
        if (moved <= 0) leave(number == 0 && moved == 0 && done == 0 ? 0 : 3);
        done += (u64)moved;
    }
}

/* Pages that can be read and written, with one on each side that cannot be touched. */
static u8 *guarded(u64 length) {
    long whole = system_call(9, 0, length + 2 * PAGE, 0, 0x22, (u64)-1, 0);
    if (whole < 0) leave(4);
    if (system_call(10, (u64)whole + PAGE, length, 3, 0, 0, 0) != 0) leave(4);
    return (u8 *)whole + PAGE;
}

static u8 *flush(u8 *room, u64 room_length, const u8 *bytes, u64 length, u64 at_end) {
    u8 *place = at_end ? room + room_length - length : room;
    memcpy(place, bytes, length);
    return place;
}

static u64 read_number(const u8 *bytes, u64 count) {
    u64 value = 0;
    for (u64 i = count; i > 0; i--) value = value << 8 | bytes[i - 1];
    return value;
}

/* FNV-1a of 64 bits, by a number at a time. */
static u64 mixed(u64 mix, u64 number) { return (mix ^ number) * 0x100000001B3ul; }
#define UNMIXED 0xCBF29CE484222325ul

static u8 *room, *other, *works, *stack;

/* A request, where its bytes stand, and the numbers lent and answered. */
struct asked {
    u64 call, at_end, numbers[8], length;
    const u8 *bytes;
    u64 *lent, *answer;
};

static void answer_one(struct asked *asked) {
    u64 call = asked->call, at_end = asked->at_end, length = asked->length, *lent = asked->lent, *answer = asked->answer;
    u64 number = asked->numbers[0], start = asked->numbers[2], end = asked->numbers[3];
    u64 after = asked->numbers[6], count = asked->numbers[7];
    u8 kind = (u8)asked->numbers[1];
    u32 depth = (u32)asked->numbers[4], some = (u32)asked->numbers[5];
    const u8 *bytes = asked->bytes, *part = flush(room, ROOM, bytes, length, at_end);
    switch (call) {
    case 0:
        if (ajuqvane_validate) answer[0] = ajuqvane_validate((u32)number, part, length);
        break;
    case 1:
        if (ajuqvane_varuint) answer[0] = ajuqvane_varuint(part, length, lent, count);
        break;
    case 2:
        if (ajuqvane_is_text) answer[0] = ajuqvane_is_text(part, length);
        break;
    case 3: /* the bytes before the number's, and those from it on */
        if (number > length) leave(5);
        if (ajuqvane_are_equal) {
            const u8 *a = flush(room, ROOM, bytes, number, at_end);
            const u8 *b = flush(other, ROOM, bytes + number, length - number, at_end);
            answer[0] = ajuqvane_are_equal(a, number, b, length - number);
        }
        break;
    case 4:
        if (ajuqvane_float32_holds) answer[0] = ajuqvane_float32_holds(number);
        break;
    case 5:
        if (ajuqvane_widen) answer[0] = ajuqvane_widen((u32)number);
        break;
    case 6:
        if (ajuqvane_check) answer[0] = ajuqvane_check(part, length, kind, start, end, depth);
        break;
    case 7:
        if (ajuqvane_top) answer[0] = ajuqvane_top(part, length, lent, count);
        break;
    case 8:
        if (ajuqvane_step)
            answer[0] = ajuqvane_step(part, length, kind, start, end, depth, some, after, lent, count);
        break;
    case 9:
        if (ajuqvane_view) answer[0] = ajuqvane_view(part, length, kind, start, end, depth, lent, count);
        break;
    case 10: /* the payload before the number's byte, and the name from it on */
        if (number > length) leave(5);
        if (ajuqvane_lookup) {
            const u8 *payload = flush(room, ROOM, bytes, number, at_end);
            const u8 *name = flush(other, ROOM, bytes + number, length - number, at_end);
            answer[0] = ajuqvane_lookup(payload, number, kind, start, end, depth, name, length - number, lent, count);
        }
        break;
    case 11:
        if (ajuqvane_double) answer[0] = ajuqvane_double(part, length, kind, start, end, depth, lent, count);
        break;
    case 12:
        if (ajuqvane_signed) answer[0] = ajuqvane_signed(part, length, kind, start, end, depth, lent, count);
        break;
    case 13:
        if (ajuqvane_unsigned) answer[0] = ajuqvane_unsigned(part, length, kind, start, end, depth, lent, count);
        break;
    case 14:
        if (ajuqvane_ticks) answer[0] = ajuqvane_ticks(part, length, kind, start, end, depth, lent, count);
        break;
    case 15:
        if (number > ROOM || after > ROOM / 4 || count > 2) leave(5);
        if (ajuqvane_write) {
            u8 *out = at_end ? other + ROOM - number : other;
            u32 *work = (u32 *)(at_end ? works + ROOM - 4 * after : works);
            memset(out, 7, number);
            for (u64 i = 0; i < after; i++) work[i] = 7;
            answer[0] = ajuqvane_write(part, length, out, number, work, after, lent, count);
            answer[4] = answer[5] = UNMIXED;
            for (u64 i = 0; i < number; i++) answer[4] = mixed(answer[4], out[i]);
            for (u64 i = 0; i < after; i++) answer[5] = mixed(answer[5], work[i]);
        }
        break;
    case 16: /* with a table of as many numbers as the end of the last place says */
        if (after > ROOM / 8) leave(5);
        if (ajuqvane_validate_with) {
            u64 *table = (u64 *)(at_end ? works + ROOM - 8 * after : works);
            for (u64 i = 0; i < after; i++) table[i] = 7;
            answer[0] = ajuqvane_validate_with((u32)number, part, length, table, after);
            answer[4] = 0;
            for (u64 i = 0; i < after; i++) answer[4] |= table[i];
        }
        break;
    default: leave(5);
    }
}

/* The same on the other stack, which is painted before: how many bytes of it were touched. */
static u64 measured(struct asked *asked) {
    volatile u64 *from = (volatile u64 *)(stack + STACK - PAINTED), *top = (volatile u64 *)(stack + STACK);
    for (volatile u64 *word = from; word < top; word++) *word = PAINT;
    __asm__ volatile("mov %%rsp, %%rbx\n  mov %2, %%rsp\n  call *%1\n  mov %%rbx, %%rsp"
                     : "+D"(asked)
                     : "r"(answer_one), "r"(top)
                     : "rax", "rbx", "rcx", "rdx", "rsi", "r8", "r9", "r10", "r11", "cc", "memory", "xmm0", "xmm1", "xmm2", "xmm3",
                       "xmm4", "xmm5", "xmm6", "xmm7", "xmm8", "xmm9", "xmm10", "xmm11", "xmm12", "xmm13", "xmm14", "xmm15");
    while (from < top && *from == PAINT) from++;
    return (u64)top - (u64)from;
}

void answer_all(void) {
    u8 *block = guarded(BLOCK), *answers = guarded(BLOCK), *last = guarded(PAGE);
    room = guarded(ROOM), other = guarded(ROOM), works = guarded(ROOM), stack = guarded(STACK);
    for (;;) {
        u8 head[4];
        transfer(0, 0, head, 4);
        u64 size = read_number(head, 4), at = 0, written = 4;
        if (size > BLOCK) leave(5);
        transfer(0, 0, block, size);
        while (at + HEAD <= size) {
            struct asked asked = {.call = block[at] & 127, .at_end = block[at + 1]};
            u64 measure = block[at] & 128;
            for (u64 i = 0; i < 8; i++) asked.numbers[i] = read_number(block + at + 2 + 8 * i, 8);
            u64 count = asked.numbers[7];
            asked.length = read_number(block + at + HEAD - 4, 4);
            asked.bytes = block + at + HEAD;
            at += HEAD + asked.length;
            if (at > size || asked.length > ROOM || written + ANSWER > BLOCK || count > MOST_LENT) leave(5);
            u64 *lent = asked.lent = (u64 *)(asked.at_end ? last + PAGE - 8 * count : last);
            for (u64 i = 0; i < count; i++) lent[i] = 7;
            u64 answer[6] = {ABSENT, 0, 0, 0, 0, 0};
            asked.answer = answer;
            u64 touched = 0;
            if (measure) touched = measured(&asked);
            else answer_one(&asked);
            memcpy(answer + 1, lent, 8 * count);
            if (measure) answer[5] = touched;
            memcpy(answers + written, answer, ANSWER);
            written += ANSWER;
        }
        for (u64 i = 0; i < 4; i++) answers[i] = (u8)((written - 4) >> 8 * i);
        transfer(1, 1, answers, written);
    }
}

__asm__(".globl _start\n_start:\n  xor %ebp, %ebp\n  and $-16, %rsp\n  call answer_all\n");
