/* The integer types that the library writes: the ends of the names of functions and of constants, and the C type. */
#define FOR_EACH_TYPE(X)                                                       \
    X(u8, U8, uint8_t)                                                         \
    X(u16, U16, uint16_t)                                                      \
    X(u32, U32, uint32_t)                                                      \
    X(u64, U64, uint64_t)                                                      \
    X(size, SIZE, size_t)                                                      \
    X(i8, I8, int8_t)                                                          \
    X(i16, I16, int16_t)                                                       \
    X(i32, I32, int32_t)                                                       \
    X(i64, I64, int64_t)

/* The initializer of a format, for C++17 too, which has no names in initializers. */
#define FORMAT(radix, required_sign, group_size, mark, lowercase)              \
    { radix, required_sign, group_size, mark, lowercase, { 0, 0 } }
