/* A program that asks two modules for what it calls. */
#define IMPORT(module, field) __attribute__((import_module(module), import_name(field)))

IMPORT("env", "now") int now(void);
IMPORT("env", "log") void log_number(int level, int number);
IMPORT("math", "power") double power(double base, int exponent);
IMPORT("math", "hypotenuse") float hypotenuse(float a, float b);

static long long ticks = 5;

__attribute__((export_name("tick"))) long long tick(void) {
    ticks += now();
    return ticks;
}

__attribute__((export_name("_start"))) void start(void) {
    log_number(1, (int)power(2.0, 10));
    log_number(2, (int)hypotenuse(3.0f, 4.0f));
}

/* A function in the table, so that the module has one. */
static int twice(int x) { return 2 * x; }
static int (*volatile pick)(int) = twice;

__attribute__((export_name("apply"))) int apply(int x) { return pick(x); }
