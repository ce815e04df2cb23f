/* The functions that app.c asks `math` for. */
__attribute__((export_name("power"))) double power(double base, int exponent) {
    double result = 1.0;
    for (int i = 0; i < exponent; i++)
        result *= base;
    return result;
}

__attribute__((export_name("hypotenuse"))) float hypotenuse(float a, float b) {
    return __builtin_sqrtf(a * a + b * b);
}
