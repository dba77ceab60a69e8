/*
 * Hanjolum 1.3.0 as one C file: all calls of hanjolum.h, with every function that they reach. Printed by tools/portable/make from
 * the proved program; not to be edited. Take it along with include/hanjolum.h:
 *
 *     cc -std=c11 -O2 -Iinclude -c portable/hanjolum.c
 *
 * It is C11 and needs no other file. Of a library it needs memcpy, memmove and memset, as a compiler asks for them, and on a machine
 * without 64-bit division the compiler's own helpers. It allocates nothing, has no variable that is not constant, and calls nothing
 * else. gcc 12 and clang 14 have no warning at -Wall -Wextra -Wpedantic -Wconversion.
 *
 * What is proved is the MIR: for all input, each function below, as the toolchain's MIR has it, ends, stays within its memory and
 * keeps its contract (docs/PROMISES.md). Those whose names begin with core are of the toolchain's own library, proved by its makers.
 * What is not proved is the printing of this file from that MIR, by the rules that tools/portable/printer.py and
 * tools/portable/instances.py list, and the C compiler. tools/portable/test tries each rule; tools/portable/digest holds the file's
 * answers to those of the archive that the toolchain compiles.
 *
 * Printed from: rattle-kit-13f logic dac8208d650f15bf
 * MIR of 444 functions at 487 types, SHA-256 67b11b45878d78ee5d07e0799cfacd7d24f32625cdd9dc5f5fd1b98fe35cd3bd
 *
 * A port of the field code of bevy_flowfield_tiles_plugin (MIT OR Apache-2.0); NOTICE has its licence.
 */

#include "hanjolum.h"

/* As the standard library has it; nothing else of it is needed. */
void *memcpy(void *to, const void *from, size_t bytes);

/* On the functions whose sum or product may pass 2 to the 32 or 2 to the 64: clang can be asked to report such a one. */
#if defined(__clang__)
#define MAY_WRAP __attribute__((no_sanitize("unsigned-integer-overflow")))
#else
#define MAY_WRAP
#endif

/* A function that is called with a direction which is known at the call, a closure, or one of the toolchain's library. */
#if defined(__OPTIMIZE__) && !defined(__OPTIMIZE_SIZE__) && defined(__GNUC__)
#define IN_LINE static inline __attribute__((always_inline))
#else
#define IN_LINE static inline
#endif

/* A function of which the source says that it is never to be put in line, or whose answer is large: its stack is free at its end. */
#if defined(__GNUC__)
#define NOT_IN_LINE static __attribute__((noinline))
#else
#define NOT_IN_LINE static
#endif

/* Before a loop of few turns: compilers that know the hint unroll it where they compile for speed. */
#if defined(__OPTIMIZE__) && !defined(__OPTIMIZE_SIZE__) && defined(__clang__)
#define UNROLL _Pragma("clang loop unroll(full)")
#elif defined(__OPTIMIZE__) && !defined(__OPTIMIZE_SIZE__) && defined(__GNUC__)
#define UNROLL _Pragma("GCC unroll 10")
#else
#define UNROLL
#endif

/* Slices are a pointer and a number of elements; an array by value is a struct with the array in it. */
typedef struct { const uint8_t *at; uint64_t length; } slice_const_uint8_t;
typedef struct { const uint32_t *at; uint64_t length; } slice_const_uint32_t;
typedef struct { uint8_t *at; uint64_t length; } slice_uint8_t;
/* utilities::CompassDir */
typedef struct {
    uint8_t tag;
} utilities__CompassDir;
/* refusals::Refusal */
typedef struct {
    uint8_t tag;
} refusals__Refusal;
/* fields::CellList<10> */
typedef struct {
    uint8_t f0[10];
    uint64_t f1;
} fields__CellList;
/* core::result::Result<fields::CellList<10>, refusals::Refusal> */
typedef struct {
    uint8_t tag;
    fields__CellList v0_f1;
    refusals__Refusal v1_f1;
} core__result__Result_6;
typedef struct { HanjolumFieldCell at[10]; } array_10_HanjolumFieldCell;
typedef struct { uint8_t at[10]; } array_10_uint8_t;
/* core::option::Option<u8> */
typedef struct {
    uint8_t tag;
    uint8_t v1_f1;
} core__option__Option_8;
/* core::array::slots::Slots<u8, 10> */
typedef struct {
    core__option__Option_8 f0[10];
} core__array__slots__Slots;
/* core::array::slots::IntoIter<u8, 10> */
typedef struct {
    core__array__slots__Slots f0;
    uint64_t f1;
    uint64_t f2;
} core__array__slots__IntoIter;
/* core::iter::closures::Map<core::array::slots::IntoIter<u8, 10>, bresenham::fn::told_line::map+Self> */
typedef struct {
    core__array__slots__IntoIter f0;
} core__iter__closures__Map;
/* core::array::map::Nexts<core::iter::closures::Map<core::array::slots::IntoIter<u8, 10>, bresenham::fn::told_line::map+Self>> */
typedef struct {
    core__iter__closures__Map f0;
    uint64_t f1;
} core__array__map__Nexts;
/* core::option::Option<fields::FieldCell> */
typedef struct {
    uint8_t tag;
    HanjolumFieldCell v1_f1;
} core__option__Option_11;
/* core::ops::ControlFlow<core::option::NoValue, u8> */
typedef struct {
    uint8_t tag;
    uint8_t v0_f1;
} core__ops__ControlFlow_3;
/* core::mem::manually_drop::ManuallyDrop<[u8; 10]> */
typedef struct {
    uint8_t f0[10];
} core__mem__manually_drop__ManuallyDrop;
typedef struct { core__option__Option_8 at[10]; } array_10_core__option__Option_8;
/* core::result::Result<(), refusals::Refusal> */
typedef struct {
    uint8_t tag;
    refusals__Refusal v1_f1;
} core__result__Result;
/* core::option::Option<&mut [u8; 100]> */
typedef struct {
    uint8_t tag;
    uint8_t *v1_f1;
} core__option__Option_3;
/* core::option::Option<&[u32]> */
typedef struct {
    uint8_t tag;
    slice_const_uint32_t v1_f1;
} core__option__Option;
/* core::option::Option<&[u32; 100]> */
typedef struct {
    uint8_t tag;
    const uint32_t *v1_f1;
} core__option__Option_4;
/* route::PortalWindow */
typedef struct {
    uint64_t f0;
    uint64_t f1;
    utilities__CompassDir f2;
} route__PortalWindow;
/* core::option::Option<route::PortalWindow> */
typedef struct {
    uint8_t tag;
    route__PortalWindow v1_f1;
} core__option__Option_5;
/* route::RouteStep */
typedef struct {
    uint64_t f0;
    uint64_t f1;
    core__option__Option_5 f2;
} route__RouteStep;
/* core::result::ErrResidual<refusals::Refusal> */
typedef struct {
    refusals__Refusal f0;
} core__result__ErrResidual;
/* core::ops::ControlFlow<core::result::ErrResidual<refusals::Refusal>, ()> */
typedef struct {
    uint8_t tag;
    core__result__ErrResidual v1_f1;
} core__ops__ControlFlow;
/* core::ops::ControlFlow<core::result::ErrResidual<refusals::Refusal>, core::option::Option<&[u32; 100]>> */
typedef struct {
    uint8_t tag;
    core__option__Option_4 v0_f1;
    core__result__ErrResidual v1_f1;
} core__ops__ControlFlow_2;
/* core::result::Result<core::option::Option<&[u32; 100]>, refusals::Refusal> */
typedef struct {
    uint8_t tag;
    core__option__Option_4 v0_f1;
    refusals__Refusal v1_f1;
} core__result__Result_4;
/* route::Target */
typedef struct {
    uint8_t tag;
    uint64_t v0_f1;
    fields__CellList v1_f1;
    uint64_t v2_f1;
} route__Target;
/* core::result::Result<&[u8; 100], refusals::Refusal> */
typedef struct {
    uint8_t tag;
    const uint8_t *v0_f1;
    refusals__Refusal v1_f1;
} core__result__Result_3;
typedef struct { const uint64_t *at; uint64_t length; } slice_const_uint64_t;
/* core::result::Result<&[u8; 100], core::convert::lends::TryFromSliceError> */
typedef struct {
    uint8_t tag;
    const uint8_t *v0_f1;
} core__result__Result_5;
/* core::iter::slices::Iter<u64> */
typedef struct {
    slice_const_uint64_t f0;
} core__iter__slices__Iter;
/* core::option::Option<&u64> */
typedef struct {
    uint8_t tag;
    const uint64_t *v1_f1;
} core__option__Option_12;
typedef struct { uint32_t at[156]; } array_156_uint32_t;
typedef struct { uint8_t at[100]; } array_100_uint8_t;
/* practice::fn::draw_costs::from_fn+Self<&[u32; 156]> */
typedef struct {
    const uint32_t *f0;
} practice__fn__draw_costs__from_fn_Self;
/* core::array::Calls<practice::fn::draw_costs::from_fn+Self<&[u32; 156]>> */
typedef struct {
    practice__fn__draw_costs__from_fn_Self f0;
    uint64_t f1;
} core__array__Calls;
typedef struct { uint8_t at[2]; } array_2_uint8_t;
/* core::cmp::slices::ElementMismatch<u8> */
typedef struct {
    slice_const_uint8_t f0;
    slice_const_uint8_t f1;
} core__cmp__slices__ElementMismatch;
/* core::slots::Slots<u8> */
typedef struct {
    uint8_t *f0;
    uint64_t f1;
} core__slots__Slots;
/* (,,)<core::slots::Slots<u8>, (), ()> */
typedef struct {
    core__slots__Slots f0;
} tuple_of_3;
/* core::result::Result<&[u8; 6400], refusals::Refusal> */
typedef struct {
    uint8_t tag;
    const uint8_t *v0_f1;
    refusals__Refusal v1_f1;
} core__result__Result_7;
/* leg_moves::spot::Spot */
typedef struct {
    uint64_t f0;
    uint64_t f1;
} leg_moves__spot__Spot;
/* leg_moves::Outcome */
typedef struct {
    uint8_t tag;
} leg_moves__Outcome;
/* core::option::Option<leg_moves::spot::Spot> */
typedef struct {
    uint8_t tag;
    leg_moves__spot__Spot v1_f1;
} core__option__Option_7;
/* utilities::Differences */
typedef struct {
    uint64_t f0;
    uint64_t f1;
} utilities__Differences;
/* core::result::Result<&[u8; 6400], core::convert::lends::TryFromSliceError> */
typedef struct {
    uint8_t tag;
    const uint8_t *v0_f1;
} core__result__Result_9;
/* core::option::Option<[u32; 100]> */
typedef struct {
    uint8_t tag;
    uint32_t v1_f1[100];
} core__option__Option_10;
/* (,)<&[[u8; 8]], &[u8]> */
typedef struct {
    slice_const_uint8_t f0;
    slice_const_uint8_t f1;
} tuple_of_2;
typedef struct { uint32_t at[100]; } array_100_uint32_t;
/* flow_byte::SeenValues */
typedef struct {
    uint32_t f0;
    uint32_t f1;
    uint32_t f2;
} flow_byte__SeenValues;
/* core::option::Option<u64> */
typedef struct {
    uint8_t tag;
    uint64_t v1_f1;
} core__option__Option_14;
/* core::option::Option<&[u8; 8]> */
typedef struct {
    uint8_t tag;
    const uint8_t *v1_f1;
} core__option__Option_13;
/* leg::fn::is_named::any+Self<&u8> */
typedef struct {
    const uint8_t *f0;
} leg__fn__is_named__any_Self;
/* core::iter::slices::Iter<[u8; 8]> */
typedef struct {
    slice_const_uint8_t f0;
} core__iter__slices__Iter_3;
typedef struct { uint8_t at[8]; } array_8_uint8_t;
typedef struct { uint8_t at[6400]; } array_6400_uint8_t;
typedef struct { uint32_t at[64]; } array_64_uint32_t;
/* tour_sums::Tour */
typedef struct {
    uint8_t f0[8];
    uint32_t f1;
} tour_sums__Tour;
/* core::option::Option<tour_sums::Tour> */
typedef struct {
    uint8_t tag;
    tour_sums__Tour v1_f1;
} core__option__Option_6;
/* tour_sums::SearchedTour */
typedef struct {
    core__option__Option_6 f0;
    uint32_t f1;
    uint32_t f2;
} tour_sums__SearchedTour;
typedef struct { uint32_t at[8]; } array_8_uint32_t;
/* core::iter::ranges::Range<u64> */
typedef struct {
    uint64_t f0;
    uint64_t f1;
} core__iter__ranges__Range;
/* tour_ranking::fn::last_above::find+Self<&u8, &[u8; 8]> */
typedef struct {
    const uint8_t *f0;
    const uint8_t *f1;
} tour_ranking__fn__last_above__find_Self;
/* core::iter::adapters::Rev<core::iter::ranges::Range<u64>> */
typedef struct {
    core__iter__ranges__Range f0;
} core__iter__adapters__Rev;
/* tour_ranking::fn::last_rise::find+Self<&[u8; 8]> */
typedef struct {
    const uint8_t *f0;
} tour_ranking__fn__last_rise__find_Self;
typedef struct { HanjolumWindowRow at[8]; } array_8_HanjolumWindowRow;
/* window_columns::fn::column_of::from_fn+Self<&[u32; 100], &[u8]> */
typedef struct {
    const uint32_t *f0;
    slice_const_uint8_t f1;
} window_columns__fn__column_of__from_fn_Self;
/* core::array::Calls<window_columns::fn::column_of::from_fn+Self<&[u32; 100], &[u8]>> */
typedef struct {
    window_columns__fn__column_of__from_fn_Self f0;
    uint64_t f1;
} core__array__Calls_2;
/* core::result::Result<bounds_told::Bounds, refusals::Refusal> */
typedef struct {
    uint8_t tag;
    HanjolumBounds v0_f1;
    refusals__Refusal v1_f1;
} core__result__Result_2;
typedef struct { bool at[100]; } array_100_bool;
/* core::option::Option<&[u8; 100]> */
typedef struct {
    uint8_t tag;
    const uint8_t *v1_f1;
} core__option__Option_2;
/* fields::CellList<8> */
typedef struct {
    uint8_t f0[8];
    uint64_t f1;
} fields__CellList_3;
/* bounds_sure::Neighbours */
typedef struct {
    fields__CellList_3 f0;
} bounds_sure__Neighbours;
typedef struct { utilities__CompassDir at[8]; } array_8_utilities__CompassDir;
typedef struct { uint16_t at[100]; } array_100_uint16_t;
typedef struct { uint8_t at[101]; } array_101_uint8_t;
typedef struct { uint64_t *at; uint64_t length; } slice_uint64_t;
/* fields::CellList<100> */
typedef struct {
    uint8_t f0[100];
    uint64_t f1;
} fields__CellList_2;
typedef struct { utilities__CompassDir at[4]; } array_4_utilities__CompassDir;
/* core::result::Result<u64, core::alloc::AllocError> */
typedef struct {
    uint8_t tag;
    uint64_t v0_f1;
} core__result__Result_10;
/* integration_init::Wave */
typedef struct {
    uint64_t f0;
    uint32_t f1;
    uint8_t f2[100];
} integration_init__Wave;
/* line_end_table::fn::read_ends::from_fn+Self<&[[u8; 100]; 100], &u64> */
typedef struct {
    const uint8_t *f0;
    const uint64_t *f1;
} line_end_table__fn__read_ends__from_fn_Self;
/* core::array::Calls<line_end_table::fn::read_ends::from_fn+Self<&[[u8; 100]; 100], &u64>> */
typedef struct {
    line_end_table__fn__read_ends__from_fn_Self f0;
    uint64_t f1;
} core__array__Calls_3;
/* core::iter::slices::Iter<u32> */
typedef struct {
    slice_const_uint32_t f0;
} core__iter__slices__Iter_4;
/* core::option::Option<&u32> */
typedef struct {
    uint8_t tag;
    const uint32_t *v1_f1;
} core__option__Option_16;
typedef struct { uint64_t at[100]; } array_100_uint64_t;
/* core::result::Result<&[u32; 100], core::convert::lends::TryFromSliceError> */
typedef struct {
    uint8_t tag;
    const uint32_t *v0_f1;
} core__result__Result_8;
/* step_numbers::fn::has_wall_cell::any+Self<&[u8]> */
typedef struct {
    slice_const_uint8_t f0;
} step_numbers__fn__has_wall_cell__any_Self;
/* core::iter::slices::Iter<u8> */
typedef struct {
    slice_const_uint8_t f0;
} core__iter__slices__Iter_2;
/* core::option::Option<&u8> */
typedef struct {
    uint8_t tag;
    const uint8_t *v1_f1;
} core__option__Option_9;
/* core::iter::ranges::RangeInclusive<u64> */
typedef struct {
    uint64_t f0;
    uint64_t f1;
    bool f2;
} core__iter__ranges__RangeInclusive;
/* core::cmp::Ordering */
typedef struct {
    uint8_t tag;
} core__cmp__Ordering;
/* core::option::Option<core::cmp::Ordering> */
typedef struct {
    uint8_t tag;
    core__cmp__Ordering v1_f1;
} core__option__Option_15;
/* route::fn::RouteStep::new::then+Self<&[u8]> */
typedef struct {
    slice_const_uint8_t f0;
} route__fn__RouteStep__new__then_Self;

/* The sizes of the proved layout, by which offsets are counted. */
_Static_assert(sizeof(HanjolumFieldCell) == 16, "HanjolumFieldCell is not 16 bytes");
_Static_assert(sizeof(HanjolumIntegrationField) == 1312, "HanjolumIntegrationField is not 1312 bytes");
_Static_assert(sizeof(HanjolumWindowRow) == 32, "HanjolumWindowRow is not 32 bytes");
_Static_assert(sizeof(bool) == 1, "bool is not 1 bytes");
_Static_assert(sizeof(core__iter__adapters__Rev) == 16, "core__iter__adapters__Rev is not 16 bytes");
_Static_assert(sizeof(core__iter__ranges__Range) == 16, "core__iter__ranges__Range is not 16 bytes");
_Static_assert(sizeof(core__iter__ranges__RangeInclusive) == 24, "core__iter__ranges__RangeInclusive is not 24 bytes");
_Static_assert(sizeof(fields__CellList) == 24, "fields__CellList is not 24 bytes");
_Static_assert(sizeof(fields__CellList_2) == 112, "fields__CellList_2 is not 112 bytes");
_Static_assert(sizeof(fields__CellList_3) == 16, "fields__CellList_3 is not 16 bytes");
_Static_assert(sizeof(integration_init__Wave) == 112, "integration_init__Wave is not 112 bytes");
_Static_assert(sizeof(uint16_t) == 2, "uint16_t is not 2 bytes");
_Static_assert(sizeof(uint32_t) == 4, "uint32_t is not 4 bytes");
_Static_assert(sizeof(uint64_t) == 8, "uint64_t is not 8 bytes");
_Static_assert(sizeof(uint8_t) == 1, "uint8_t is not 1 bytes");
_Static_assert(sizeof(utilities__CompassDir) == 1, "utilities__CompassDir is not 1 bytes");

/* The constant that line_end_table::ends::lay_out has. */
static const uint8_t line_end_table__ends__lay_out__102[10000] = {
    0, 0, 0, 0, 0, 0, 0, 0, 0, 0, 0, 0, 0, 0, 0, 0, 0, 0, 0, 0,
    0, 0, 0, 0, 0, 0, 0, 0, 0, 0, 0, 0, 0, 0, 0, 0, 0, 0, 0, 0,
    0, 0, 0, 0, 0, 0, 0, 0, 0, 0, 0, 0, 0, 0, 0, 0, 0, 0, 0, 0,
    0, 0, 0, 0, 0, 0, 0, 0, 0, 0, 0, 0, 0, 0, 0, 0, 0, 0, 0, 0,
    0, 0, 0, 0, 0, 0, 0, 0, 0, 0, 0, 0, 0, 0, 0, 0, 0, 0, 0, 0,
    9, 1, 0, 0, 0, 0, 0, 0, 0, 0, 2, 1, 0, 0, 0, 0, 0, 0, 0, 0,
    2, 1, 0, 0, 0, 0, 0, 0, 0, 0, 2, 1, 0, 0, 0, 0, 0, 0, 0, 0,
    2, 1, 0, 0, 0, 0, 0, 0, 0, 0, 2, 1, 0, 0, 0, 0, 0, 0, 0, 0,
    2, 1, 0, 0, 0, 0, 0, 0, 0, 0, 2, 1, 0, 0, 0, 0, 0, 0, 0, 0,
    2, 1, 0, 0, 0, 0, 0, 0, 0, 0, 2, 1, 0, 0, 0, 0, 0, 0, 0, 0,
    9, 9, 2, 0, 0, 0, 0, 0, 0, 0, 4, 3, 2, 1, 0, 0, 0, 0, 0, 0,
    3, 3, 2, 1, 1, 1, 0, 0, 0, 0, 3, 3, 2, 1, 1, 1, 1, 1, 0, 0,
    3, 3, 2, 1, 1, 1, 1, 1, 1, 1, 3, 3, 2, 1, 1, 1, 1, 1, 1, 1,
    3, 3, 2, 1, 1, 1, 1, 1, 1, 1, 3, 3, 2, 1, 1, 1, 1, 1, 1, 1,
    3, 3, 2, 1, 1, 1, 1, 1, 1, 1, 3, 3, 2, 1, 1, 1, 1, 1, 1, 1,
    9, 9, 9, 3, 0, 0, 0, 0, 0, 0, 5, 5, 4, 3, 2, 1, 1, 0, 0, 0,
    4, 4, 4, 3, 2, 2, 2, 1, 1, 1, 4, 4, 4, 3, 2, 2, 2, 2, 2, 1,
    4, 4, 4, 3, 2, 2, 2, 2, 2, 2, 4, 4, 4, 3, 2, 2, 2, 2, 2, 2,
    4, 4, 4, 3, 2, 2, 2, 2, 2, 2, 4, 4, 4, 3, 2, 2, 2, 2, 2, 2,
    4, 4, 4, 3, 2, 2, 2, 2, 2, 2, 4, 4, 4, 3, 2, 2, 2, 2, 2, 2,
    9, 9, 9, 9, 4, 0, 0, 0, 0, 0, 7, 6, 6, 5, 4, 3, 2, 2, 1, 1,
    6, 5, 5, 5, 4, 3, 3, 3, 2, 2, 5, 5, 5, 5, 4, 3, 3, 3, 3, 3,
    5, 5, 5, 5, 4, 3, 3, 3, 3, 3, 5, 5, 5, 5, 4, 3, 3, 3, 3, 3,
    5, 5, 5, 5, 4, 3, 3, 3, 3, 3, 5, 5, 5, 5, 4, 3, 3, 3, 3, 3,
    5, 5, 5, 5, 4, 3, 3, 3, 3, 3, 5, 5, 5, 5, 4, 3, 3, 3, 3, 3,
    9, 9, 9, 9, 9, 5, 0, 0, 0, 0, 8, 8, 7, 7, 6, 5, 4, 3, 3, 2,
    7, 7, 6, 6, 6, 5, 4, 4, 4, 3, 6, 6, 6, 6, 6, 5, 4, 4, 4, 4,
    6, 6, 6, 6, 6, 5, 4, 4, 4, 4, 6, 6, 6, 6, 6, 5, 4, 4, 4, 4,
    6, 6, 6, 6, 6, 5, 4, 4, 4, 4, 6, 6, 6, 6, 6, 5, 4, 4, 4, 4,
    6, 6, 6, 6, 6, 5, 4, 4, 4, 4, 6, 6, 6, 6, 6, 5, 4, 4, 4, 4,
    9, 9, 9, 9, 9, 9, 6, 0, 0, 0, 9, 9, 9, 8, 8, 7, 6, 5, 4, 4,
    8, 8, 8, 7, 7, 7, 6, 5, 5, 5, 8, 7, 7, 7, 7, 7, 6, 5, 5, 5,
    7, 7, 7, 7, 7, 7, 6, 5, 5, 5, 7, 7, 7, 7, 7, 7, 6, 5, 5, 5,
    7, 7, 7, 7, 7, 7, 6, 5, 5, 5, 7, 7, 7, 7, 7, 7, 6, 5, 5, 5,
    7, 7, 7, 7, 7, 7, 6, 5, 5, 5, 7, 7, 7, 7, 7, 7, 6, 5, 5, 5,
    9, 9, 9, 9, 9, 9, 9, 7, 0, 0, 9, 9, 9, 9, 9, 9, 8, 7, 6, 5,
    9, 9, 9, 9, 8, 8, 8, 7, 6, 6, 9, 9, 8, 8, 8, 8, 8, 7, 6, 6,
    8, 8, 8, 8, 8, 8, 8, 7, 6, 6, 8, 8, 8, 8, 8, 8, 8, 7, 6, 6,
    8, 8, 8, 8, 8, 8, 8, 7, 6, 6, 8, 8, 8, 8, 8, 8, 8, 7, 6, 6,
    8, 8, 8, 8, 8, 8, 8, 7, 6, 6, 8, 8, 8, 8, 8, 8, 8, 7, 6, 6,
    9, 9, 9, 9, 9, 9, 9, 9, 8, 0, 9, 9, 9, 9, 9, 9, 9, 9, 8, 7,
    9, 9, 9, 9, 9, 9, 9, 9, 8, 7, 9, 9, 9, 9, 9, 9, 9, 9, 8, 7,
    9, 9, 9, 9, 9, 9, 9, 9, 8, 7, 9, 9, 9, 9, 9, 9, 9, 9, 8, 7,
    9, 9, 9, 9, 9, 9, 9, 9, 8, 7, 9, 9, 9, 9, 9, 9, 9, 9, 8, 7,
    9, 9, 9, 9, 9, 9, 9, 9, 8, 7, 9, 9, 9, 9, 9, 9, 9, 9, 8, 7,
    9, 9, 9, 9, 9, 9, 9, 9, 9, 9, 9, 9, 9, 9, 9, 9, 9, 9, 9, 9,
    9, 9, 9, 9, 9, 9, 9, 9, 9, 9, 9, 9, 9, 9, 9, 9, 9, 9, 9, 9,
    9, 9, 9, 9, 9, 9, 9, 9, 9, 9, 9, 9, 9, 9, 9, 9, 9, 9, 9, 9,
    9, 9, 9, 9, 9, 9, 9, 9, 9, 9, 9, 9, 9, 9, 9, 9, 9, 9, 9, 9,
    9, 9, 9, 9, 9, 9, 9, 9, 9, 9, 9, 9, 9, 9, 9, 9, 9, 9, 9, 9,
    90, 10, 10, 10, 10, 10, 10, 10, 10, 10, 0, 10, 10, 10, 10, 10, 10, 10, 10, 10,
    0, 10, 10, 10, 10, 10, 10, 10, 10, 10, 0, 10, 10, 10, 10, 10, 10, 10, 10, 10,
    0, 10, 10, 10, 10, 10, 10, 10, 10, 10, 0, 10, 10, 10, 10, 10, 10, 10, 10, 10,
    0, 10, 10, 10, 10, 10, 10, 10, 10, 10, 0, 10, 10, 10, 10, 10, 10, 10, 10, 10,
    0, 10, 10, 10, 10, 10, 10, 10, 10, 10, 0, 10, 10, 10, 10, 10, 10, 10, 10, 10,
    99, 91, 20, 10, 10, 10, 10, 10, 10, 10, 19, 1, 10, 10, 10, 10, 10, 10, 10, 10,
    3, 1, 0, 10, 10, 10, 10, 10, 10, 10, 2, 1, 0, 0, 0, 10, 10, 10, 10, 10,
    2, 1, 0, 0, 0, 0, 0, 10, 10, 10, 2, 1, 0, 0, 0, 0, 0, 0, 0, 10,
    2, 1, 0, 0, 0, 0, 0, 0, 0, 0, 2, 1, 0, 0, 0, 0, 0, 0, 0, 0,
    2, 1, 0, 0, 0, 0, 0, 0, 0, 0, 2, 1, 0, 0, 0, 0, 0, 0, 0, 0,
    49, 89, 92, 30, 20, 20, 10, 10, 10, 10, 19, 19, 2, 10, 10, 10, 10, 10, 10, 10,
    6, 4, 2, 0, 0, 0, 10, 10, 10, 10, 4, 3, 2, 1, 0, 0, 0, 0, 0, 0,
    4, 3, 2, 1, 0, 0, 0, 0, 0, 0, 3, 3, 2, 1, 1, 0, 0, 0, 0, 0,
    3, 3, 2, 1, 1, 1, 0, 0, 0, 0, 3, 3, 2, 1, 1, 1, 0, 0, 0, 0,
    3, 3, 2, 1, 1, 1, 1, 0, 0, 0, 3, 3, 2, 1, 1, 1, 1, 1, 0, 0,
    39, 49, 79, 93, 40, 20, 20, 20, 20, 10, 19, 19, 19, 3, 10, 10, 10, 10, 10, 10,
    8, 7, 5, 3, 1, 0, 0, 0, 0, 10, 6, 5, 4, 3, 2, 1, 0, 0, 0, 0,
    5, 5, 4, 3, 2, 1, 1, 0, 0, 0, 5, 4, 4, 3, 2, 2, 1, 1, 1, 0,
    4, 4, 4, 3, 2, 2, 2, 1, 1, 1, 4, 4, 4, 3, 2, 2, 2, 1, 1, 1,
    4, 4, 4, 3, 2, 2, 2, 2, 1, 1, 4, 4, 4, 3, 2, 2, 2, 2, 2, 1,
    29, 39, 39, 69, 94, 50, 30, 20, 20, 20, 19, 19, 19, 19, 4, 10, 10, 10, 10, 10,
    9, 9, 8, 6, 4, 2, 0, 0, 0, 0, 8, 7, 6, 5, 4, 3, 2, 1, 0, 0,
    7, 6, 6, 5, 4, 3, 2, 2, 1, 1, 6, 6, 5, 5, 4, 3, 3, 2, 2, 2,
    6, 5, 5, 5, 4, 3, 3, 3, 2, 2, 6, 5, 5, 5, 4, 3, 3, 3, 2, 2,
    5, 5, 5, 5, 4, 3, 3, 3, 3, 2, 5, 5, 5, 5, 4, 3, 3, 3, 3, 3,
    29, 29, 29, 39, 59, 95, 60, 30, 30, 20, 19, 19, 19, 19, 19, 5, 10, 10, 10, 10,
    9, 9, 9, 9, 7, 5, 3, 1, 0, 0, 9, 9, 8, 7, 6, 5, 4, 3, 2, 1,
    8, 8, 7, 7, 6, 5, 4, 3, 3, 2, 7, 7, 7, 6, 6, 5, 4, 4, 3, 3,
    7, 7, 6, 6, 6, 5, 4, 4, 4, 3, 7, 7, 6, 6, 6, 5, 4, 4, 4, 3,
    7, 6, 6, 6, 6, 5, 4, 4, 4, 4, 6, 6, 6, 6, 6, 5, 4, 4, 4, 4,
    19, 29, 29, 29, 29, 49, 96, 70, 40, 30, 19, 19, 19, 19, 19, 19, 6, 10, 10, 10,
    19, 9, 9, 9, 9, 8, 6, 4, 2, 1, 9, 9, 9, 9, 8, 7, 6, 5, 4, 3,
    9, 9, 9, 8, 8, 7, 6, 5, 4, 4, 9, 8, 8, 8, 7, 7, 6, 5, 5, 4,
    8, 8, 8, 7, 7, 7, 6, 5, 5, 5, 8, 8, 8, 7, 7, 7, 6, 5, 5, 5,
    8, 8, 7, 7, 7, 7, 6, 5, 5, 5, 8, 7, 7, 7, 7, 7, 6, 5, 5, 5,
    19, 19, 19, 19, 29, 29, 39, 97, 80, 40, 19, 19, 19, 19, 19, 19, 19, 7, 10, 10,
    19, 19, 19, 19, 9, 9, 9, 7, 5, 3, 9, 9, 9, 9, 9, 9, 8, 7, 6, 5,
    9, 9, 9, 9, 9, 9, 8, 7, 6, 5, 9, 9, 9, 9, 9, 8, 8, 7, 6, 6,
    9, 9, 9, 9, 8, 8, 8, 7, 6, 6, 9, 9, 9, 9, 8, 8, 8, 7, 6, 6,
    9, 9, 9, 8, 8, 8, 8, 7, 6, 6, 9, 9, 8, 8, 8, 8, 8, 7, 6, 6,
    19, 19, 19, 19, 19, 19, 19, 29, 98, 90, 19, 19, 19, 19, 19, 19, 19, 19, 8, 10,
    19, 19, 19, 19, 19, 19, 19, 9, 8, 6, 19, 19, 19, 19, 19, 9, 9, 9, 8, 7,
    19, 19, 19, 9, 9, 9, 9, 9, 8, 7, 19, 9, 9, 9, 9, 9, 9, 9, 8, 7,
    9, 9, 9, 9, 9, 9, 9, 9, 8, 7, 9, 9, 9, 9, 9, 9, 9, 9, 8, 7,
    9, 9, 9, 9, 9, 9, 9, 9, 8, 7, 9, 9, 9, 9, 9, 9, 9, 9, 8, 7,
    19, 19, 19, 19, 19, 19, 19, 19, 19, 99, 19, 19, 19, 19, 19, 19, 19, 19, 19, 9,
    19, 19, 19, 19, 19, 19, 19, 19, 19, 9, 19, 19, 19, 19, 19, 19, 19, 19, 19, 9,
    19, 19, 19, 19, 19, 19, 19, 19, 19, 9, 19, 19, 19, 19, 19, 19, 19, 19, 19, 9,
    19, 19, 19, 19, 19, 19, 19, 19, 19, 9, 19, 19, 19, 19, 19, 19, 19, 19, 19, 9,
    19, 19, 19, 19, 19, 19, 19, 19, 19, 9, 19, 19, 19, 19, 19, 19, 19, 19, 19, 9,
    90, 20, 20, 20, 20, 20, 20, 20, 20, 20, 90, 20, 20, 20, 20, 20, 20, 20, 20, 20,
    0, 20, 20, 20, 20, 20, 20, 20, 20, 20, 0, 20, 20, 20, 20, 20, 20, 20, 20, 20,
    0, 20, 20, 20, 20, 20, 20, 20, 20, 20, 0, 20, 20, 20, 20, 20, 20, 20, 20, 20,
    0, 20, 20, 20, 20, 20, 20, 20, 20, 20, 0, 20, 20, 20, 20, 20, 20, 20, 20, 20,
    0, 20, 20, 20, 20, 20, 20, 20, 20, 20, 0, 20, 20, 20, 20, 20, 20, 20, 20, 20,
    95, 91, 40, 30, 30, 20, 20, 20, 20, 20, 99, 91, 30, 20, 20, 20, 20, 20, 20, 20,
    29, 1, 20, 20, 20, 20, 20, 20, 20, 20, 4, 1, 10, 20, 20, 20, 20, 20, 20, 20,
    3, 1, 0, 10, 10, 20, 20, 20, 20, 20, 2, 1, 0, 10, 10, 10, 10, 20, 20, 20,
    2, 1, 0, 0, 10, 10, 10, 10, 10, 20, 2, 1, 0, 0, 0, 10, 10, 10, 10, 10,
    2, 1, 0, 0, 0, 10, 10, 10, 10, 10, 2, 1, 0, 0, 0, 0, 10, 10, 10, 10,
    99, 96, 92, 60, 40, 30, 30, 30, 30, 30, 59, 99, 92, 40, 30, 30, 20, 20, 20, 20,
    29, 29, 2, 20, 20, 20, 20, 20, 20, 20, 8, 5, 2, 0, 10, 10, 20, 20, 20, 20,
    5, 4, 2, 0, 0, 10, 10, 10, 10, 10, 4, 3, 2, 1, 0, 0, 10, 10, 10, 10,
    4, 3, 2, 1, 0, 0, 0, 0, 10, 10, 4, 3, 2, 1, 0, 0, 0, 0, 0, 10,
    3, 3, 2, 1, 1, 0, 0, 0, 0, 0, 3, 3, 2, 1, 1, 0, 0, 0, 0, 0,
    69, 89, 97, 93, 80, 50, 40, 30, 30, 30, 49, 59, 89, 93, 50, 30, 30, 30, 30, 20,
    29, 29, 29, 3, 20, 20, 20, 20, 20, 20, 9, 9, 6, 3, 0, 10, 10, 10, 10, 20,
    7, 6, 5, 3, 1, 0, 0, 10, 10, 10, 6, 5, 4, 3, 2, 1, 0, 0, 0, 10,
    5, 5, 4, 3, 2, 1, 1, 0, 0, 0, 5, 5, 4, 3, 2, 1, 1, 0, 0, 0,
    5, 4, 4, 3, 2, 2, 1, 1, 0, 0, 5, 4, 4, 3, 2, 2, 1, 1, 1, 0,
    49, 59, 79, 98, 94, 90, 60, 50, 40, 40, 39, 49, 49, 79, 94, 60, 40, 30, 30, 30,
    29, 29, 29, 29, 4, 20, 20, 20, 20, 20, 19, 9, 9, 7, 4, 1, 0, 10, 10, 10,
    9, 8, 7, 6, 4, 2, 1, 0, 0, 0, 8, 7, 6, 5, 4, 3, 2, 1, 0, 0,
    7, 6, 6, 5, 4, 3, 2, 2, 1, 0, 7, 6, 6, 5, 4, 3, 2, 2, 1, 1,
    6, 6, 5, 5, 4, 3, 3, 2, 2, 1, 6, 6, 5, 5, 4, 3, 3, 2, 2, 2,
    49, 49, 59, 69, 99, 95, 91, 70, 50, 40, 39, 39, 39, 49, 69, 95, 70, 40, 40, 30,
    29, 29, 29, 29, 29, 5, 20, 20, 20, 20, 19, 19, 19, 9, 8, 5, 2, 0, 0, 10,
    9, 9, 9, 8, 7, 5, 3, 2, 1, 0, 9, 9, 8, 7, 6, 5, 4, 3, 2, 1,
    9, 8, 7, 7, 6, 5, 4, 3, 3, 2, 8, 8, 7, 7, 6, 5, 4, 3, 3, 2,
    8, 7, 7, 6, 6, 5, 4, 4, 3, 3, 7, 7, 7, 6, 6, 5, 4, 4, 3, 3,
    39, 39, 39, 49, 59, 89, 96, 92, 80, 60, 29, 39, 39, 39, 39, 59, 96, 80, 50, 40,
    29, 29, 29, 29, 29, 29, 6, 20, 20, 20, 29, 19, 19, 19, 19, 9, 6, 3, 0, 0,
    19, 19, 19, 9, 9, 8, 6, 4, 3, 2, 19, 9, 9, 9, 8, 7, 6, 5, 4, 3,
    9, 9, 9, 8, 8, 7, 6, 5, 4, 4, 9, 9, 9, 8, 8, 7, 6, 5, 4, 4,
    9, 9, 8, 8, 7, 7, 6, 5, 5, 4, 9, 8, 8, 8, 7, 7, 6, 5, 5, 4,
    39, 39, 39, 39, 39, 49, 69, 97, 93, 90, 29, 29, 29, 29, 39, 39, 49, 97, 90, 50,
    29, 29, 29, 29, 29, 29, 29, 7, 20, 20, 29, 29, 29, 29, 19, 19, 9, 7, 4, 1,
    19, 19, 19, 19, 19, 9, 9, 7, 5, 4, 19, 19, 19, 19, 9, 9, 8, 7, 6, 5,
    19, 19, 9, 9, 9, 9, 8, 7, 6, 5, 19, 9, 9, 9, 9, 9, 8, 7, 6, 5,
    9, 9, 9, 9, 9, 8, 8, 7, 6, 6, 9, 9, 9, 9, 9, 8, 8, 7, 6, 6,
    29, 29, 29, 29, 29, 39, 39, 49, 98, 94, 29, 29, 29, 29, 29, 29, 29, 39, 98, 90,
    29, 29, 29, 29, 29, 29, 29, 29, 8, 20, 29, 29, 29, 29, 29, 29, 29, 19, 8, 5,
    29, 29, 29, 29, 29, 19, 19, 9, 8, 6, 29, 29, 29, 19, 19, 19, 19, 9, 8, 7,
    29, 19, 19, 19, 19, 19, 9, 9, 8, 7, 19, 19, 19, 19, 19, 9, 9, 9, 8, 7,
    19, 19, 19, 19, 19, 9, 9, 9, 8, 7, 19, 19, 19, 19, 9, 9, 9, 9, 8, 7,
    29, 29, 29, 29, 29, 29, 29, 29, 29, 99, 29, 29, 29, 29, 29, 29, 29, 29, 29, 99,
    29, 29, 29, 29, 29, 29, 29, 29, 29, 9, 29, 29, 29, 29, 29, 29, 29, 29, 29, 9,
    29, 29, 29, 29, 29, 29, 29, 29, 29, 9, 29, 29, 29, 29, 29, 29, 29, 29, 29, 9,
    29, 29, 29, 29, 29, 29, 29, 29, 29, 9, 29, 29, 29, 29, 29, 29, 29, 29, 29, 9,
    29, 29, 29, 29, 29, 29, 29, 29, 29, 9, 29, 29, 29, 29, 29, 29, 29, 29, 29, 9,
    90, 30, 30, 30, 30, 30, 30, 30, 30, 30, 90, 30, 30, 30, 30, 30, 30, 30, 30, 30,
    90, 30, 30, 30, 30, 30, 30, 30, 30, 30, 0, 30, 30, 30, 30, 30, 30, 30, 30, 30,
    0, 30, 30, 30, 30, 30, 30, 30, 30, 30, 0, 30, 30, 30, 30, 30, 30, 30, 30, 30,
    0, 30, 30, 30, 30, 30, 30, 30, 30, 30, 0, 30, 30, 30, 30, 30, 30, 30, 30, 30,
    0, 30, 30, 30, 30, 30, 30, 30, 30, 30, 0, 30, 30, 30, 30, 30, 30, 30, 30, 30,
    94, 91, 60, 40, 40, 40, 40, 30, 30, 30, 95, 91, 50, 40, 40, 30, 30, 30, 30, 30,
    98, 91, 40, 30, 30, 30, 30, 30, 30, 30, 39, 1, 30, 30, 30, 30, 30, 30, 30, 30,
    5, 1, 20, 30, 30, 30, 30, 30, 30, 30, 3, 1, 10, 20, 20, 30, 30, 30, 30, 30,
    3, 1, 0, 20, 20, 20, 20, 30, 30, 30, 2, 1, 0, 10, 20, 20, 20, 20, 20, 30,
    2, 1, 0, 10, 10, 20, 20, 20, 20, 20, 2, 1, 0, 0, 10, 20, 20, 20, 20, 20,
    97, 95, 92, 90, 60, 50, 40, 40, 40, 40, 99, 96, 92, 70, 50, 40, 40, 40, 40, 40,
    69, 99, 92, 50, 40, 40, 30, 30, 30, 30, 39, 39, 2, 30, 30, 30, 30, 30, 30, 30,
    9, 6, 2, 10, 20, 20, 30, 30, 30, 30, 6, 4, 2, 0, 10, 20, 20, 20, 20, 20,
    5, 4, 2, 0, 0, 10, 20, 20, 20, 20, 4, 3, 2, 1, 0, 0, 10, 10, 20, 20,
    4, 3, 2, 1, 0, 0, 10, 10, 10, 20, 4, 3, 2, 1, 0, 0, 0, 10, 10, 10,
    99, 98, 96, 93, 90, 70, 60, 50, 50, 40, 79, 99, 97, 93, 90, 60, 50, 40, 40, 40,
    59, 69, 99, 93, 60, 40, 40, 40, 40, 30, 39, 39, 39, 3, 30, 30, 30, 30, 30, 30,
    19, 9, 7, 3, 0, 20, 20, 20, 20, 30, 9, 7, 5, 3, 1, 0, 10, 20, 20, 20,
    7, 6, 5, 3, 1, 0, 0, 10, 10, 20, 6, 5, 4, 3, 2, 1, 0, 0, 10, 10,
    6, 5, 4, 3, 2, 1, 0, 0, 0, 10, 5, 5, 4, 3, 2, 1, 1, 0, 0, 0,
    79, 89, 99, 97, 94, 91, 90, 70, 60, 50, 59, 69, 89, 98, 94, 90, 70, 60, 50, 50,
    49, 59, 59, 89, 94, 70, 50, 40, 40, 40, 39, 39, 39, 39, 4, 30, 30, 30, 30, 30,
    29, 19, 19, 8, 4, 0, 10, 20, 20, 20, 19, 9, 8, 6, 4, 2, 0, 0, 10, 10,
    9, 8, 7, 6, 4, 2, 1, 0, 0, 10, 8, 7, 6, 5, 4, 3, 2, 1, 0, 0,
    7, 7, 6, 5, 4, 3, 2, 1, 1, 0, 7, 6, 6, 5, 4, 3, 2, 2, 1, 1,
    59, 69, 79, 99, 98, 95, 92, 90, 80, 70, 59, 59, 69, 79, 99, 95, 91, 80, 60, 50,
    49, 49, 49, 59, 79, 95, 80, 50, 50, 40, 39, 39, 39, 39, 39, 5, 30, 30, 30, 30,
    29, 29, 29, 19, 9, 5, 1, 10, 10, 20, 19, 19, 9, 9, 7, 5, 3, 1, 0, 10,
    19, 9, 9, 8, 7, 5, 3, 2, 1, 0, 9, 9, 8, 7, 6, 5, 4, 3, 2, 1,
    9, 8, 8, 7, 6, 5, 4, 3, 2, 2, 8, 8, 7, 7, 6, 5, 4, 3, 3, 2,
    49, 59, 59, 69, 79, 99, 96, 93, 91, 90, 49, 49, 49, 59, 69, 99, 96, 92, 90, 70,
    39, 49, 49, 49, 49, 69, 96, 90, 60, 50, 39, 39, 39, 39, 39, 39, 6, 30, 30, 30,
    39, 29, 29, 29, 29, 9, 6, 2, 0, 10, 29, 29, 29, 19, 9, 8, 6, 4, 2, 0,
    29, 19, 19, 9, 9, 8, 6, 4, 3, 2, 19, 19, 9, 9, 8, 7, 6, 5, 4, 3,
    19, 9, 9, 9, 8, 7, 6, 5, 4, 3, 9, 9, 9, 8, 8, 7, 6, 5, 4, 4,
    49, 49, 49, 49, 59, 69, 99, 97, 94, 92, 49, 49, 49, 49, 49, 59, 79, 97, 93, 90,
    39, 39, 39, 39, 49, 49, 59, 97, 90, 60, 39, 39, 39, 39, 39, 39, 39, 7, 30, 30,
    39, 39, 39, 39, 29, 29, 19, 7, 3, 0, 29, 29, 29, 29, 29, 19, 9, 7, 5, 3,
    29, 29, 29, 29, 19, 9, 9, 7, 5, 4, 29, 29, 19, 19, 9, 9, 8, 7, 6, 5,
    29, 19, 19, 19, 9, 9, 8, 7, 6, 5, 19, 19, 19, 9, 9, 9, 8, 7, 6, 5,
    39, 39, 39, 49, 49, 49, 49, 69, 98, 95, 39, 39, 39, 39, 39, 49, 49, 59, 98, 94,
    39, 39, 39, 39, 39, 39, 39, 49, 98, 91, 39, 39, 39, 39, 39, 39, 39, 39, 8, 30,
    39, 39, 39, 39, 39, 39, 39, 29, 8, 4, 39, 39, 39, 39, 39, 29, 29, 19, 8, 6,
    39, 39, 39, 29, 29, 29, 29, 9, 8, 6, 39, 29, 29, 29, 29, 29, 19, 9, 8, 7,
    29, 29, 29, 29, 29, 19, 19, 9, 8, 7, 29, 29, 29, 29, 29, 19, 9, 9, 8, 7,
    39, 39, 39, 39, 39, 39, 39, 39, 39, 99, 39, 39, 39, 39, 39, 39, 39, 39, 39, 99,
    39, 39, 39, 39, 39, 39, 39, 39, 39, 99, 39, 39, 39, 39, 39, 39, 39, 39, 39, 9,
    39, 39, 39, 39, 39, 39, 39, 39, 39, 9, 39, 39, 39, 39, 39, 39, 39, 39, 39, 9,
    39, 39, 39, 39, 39, 39, 39, 39, 39, 9, 39, 39, 39, 39, 39, 39, 39, 39, 39, 9,
    39, 39, 39, 39, 39, 39, 39, 39, 39, 9, 39, 39, 39, 39, 39, 39, 39, 39, 39, 9,
    90, 40, 40, 40, 40, 40, 40, 40, 40, 40, 90, 40, 40, 40, 40, 40, 40, 40, 40, 40,
    90, 40, 40, 40, 40, 40, 40, 40, 40, 40, 90, 40, 40, 40, 40, 40, 40, 40, 40, 40,
    0, 40, 40, 40, 40, 40, 40, 40, 40, 40, 0, 40, 40, 40, 40, 40, 40, 40, 40, 40,
    0, 40, 40, 40, 40, 40, 40, 40, 40, 40, 0, 40, 40, 40, 40, 40, 40, 40, 40, 40,
    0, 40, 40, 40, 40, 40, 40, 40, 40, 40, 0, 40, 40, 40, 40, 40, 40, 40, 40, 40,
    93, 91, 80, 60, 50, 50, 50, 50, 50, 40, 93, 91, 70, 50, 50, 50, 50, 40, 40, 40,
    94, 91, 60, 50, 50, 40, 40, 40, 40, 40, 97, 91, 50, 40, 40, 40, 40, 40, 40, 40,
    49, 1, 40, 40, 40, 40, 40, 40, 40, 40, 6, 1, 30, 40, 40, 40, 40, 40, 40, 40,
    4, 1, 20, 30, 30, 40, 40, 40, 40, 40, 3, 1, 10, 30, 30, 30, 30, 40, 40, 40,
    3, 1, 0, 20, 30, 30, 30, 30, 30, 40, 2, 1, 0, 20, 20, 30, 30, 30, 30, 30,
    95, 94, 92, 90, 80, 70, 60, 60, 50, 50, 96, 94, 92, 90, 70, 60, 50, 50, 50, 50,
    98, 95, 92, 80, 60, 50, 50, 50, 50, 50, 79, 98, 92, 60, 50, 50, 40, 40, 40, 40,
    49, 49, 2, 40, 40, 40, 40, 40, 40, 40, 19, 7, 2, 20, 30, 30, 40, 40, 40, 40,
    7, 5, 2, 0, 20, 30, 30, 30, 30, 30, 6, 4, 2, 0, 10, 20, 30, 30, 30, 30,
    5, 4, 2, 0, 0, 10, 20, 20, 30, 30, 4, 3, 2, 1, 0, 10, 20, 20, 20, 30,
    98, 96, 95, 93, 91, 90, 80, 70, 60, 60, 99, 97, 95, 93, 91, 80, 70, 60, 60, 50,
    89, 99, 96, 93, 90, 70, 60, 50, 50, 50, 69, 79, 99, 93, 70, 50, 50, 50, 50, 40,
    49, 49, 49, 3, 40, 40, 40, 40, 40, 40, 29, 19, 8, 3, 10, 30, 30, 30, 30, 40,
    9, 8, 6, 3, 0, 10, 20, 30, 30, 30, 8, 7, 5, 3, 1, 0, 10, 20, 20, 30,
    7, 6, 5, 3, 1, 0, 0, 10, 20, 20, 6, 5, 4, 3, 2, 1, 0, 0, 10, 20,
    99, 99, 97, 96, 94, 92, 91, 90, 80, 70, 89, 99, 98, 96, 94, 92, 90, 80, 70, 60,
    69, 79, 99, 97, 94, 91, 80, 70, 60, 60, 59, 69, 69, 99, 94, 80, 60, 50, 50, 50,
    49, 49, 49, 49, 4, 40, 40, 40, 40, 40, 39, 29, 29, 9, 4, 0, 20, 30, 30, 30,
    29, 19, 9, 7, 4, 1, 0, 10, 20, 20, 9, 9, 8, 6, 4, 2, 0, 0, 10, 20,
    9, 8, 7, 6, 4, 2, 1, 0, 0, 10, 8, 7, 6, 5, 4, 3, 2, 1, 0, 0,
    79, 89, 99, 98, 97, 95, 93, 92, 90, 90, 69, 79, 89, 99, 97, 95, 93, 91, 90, 80,
    69, 69, 79, 89, 98, 95, 92, 90, 70, 60, 59, 59, 59, 69, 89, 95, 90, 60, 60, 50,
    49, 49, 49, 49, 49, 5, 40, 40, 40, 40, 39, 39, 39, 29, 9, 5, 0, 20, 20, 30,
    29, 29, 19, 9, 8, 5, 2, 0, 10, 20, 29, 19, 9, 9, 7, 5, 3, 1, 0, 0,
    19, 9, 9, 8, 7, 5, 3, 2, 1, 0, 9, 9, 8, 7, 6, 5, 4, 3, 2, 1,
    69, 69, 79, 89, 99, 98, 96, 94, 93, 91, 59, 69, 69, 79, 89, 98, 96, 94, 92, 90,
    59, 59, 59, 69, 79, 99, 96, 93, 90, 80, 49, 59, 59, 59, 59, 79, 96, 90, 70, 60,
    49, 49, 49, 49, 49, 49, 6, 40, 40, 40, 49, 39, 39, 39, 39, 19, 6, 1, 10, 20,
    39, 39, 39, 29, 19, 9, 6, 3, 1, 0, 39, 29, 29, 19, 9, 8, 6, 4, 2, 1,
    29, 29, 19, 9, 9, 8, 6, 4, 3, 2, 29, 19, 9, 9, 8, 7, 6, 5, 4, 3,
    59, 59, 69, 69, 79, 89, 99, 97, 95, 94, 59, 59, 59, 59, 69, 79, 99, 97, 95, 93,
    59, 59, 59, 59, 59, 69, 89, 97, 94, 91, 49, 49, 49, 49, 59, 59, 69, 97, 91, 70,
    49, 49, 49, 49, 49, 49, 49, 7, 40, 40, 49, 49, 49, 49, 39, 39, 29, 7, 2, 10,
    39, 39, 39, 39, 39, 29, 9, 7, 4, 2, 39, 39, 39, 39, 29, 19, 9, 7, 5, 3,
    39, 39, 29, 29, 19, 9, 9, 7, 5, 4, 39, 29, 29, 29, 19, 9, 8, 7, 6, 5,
    49, 59, 59, 59, 59, 59, 69, 89, 98, 96, 49, 49, 49, 59, 59, 59, 59, 79, 98, 96,
    49, 49, 49, 49, 49, 59, 59, 69, 98, 95, 49, 49, 49, 49, 49, 49, 49, 59, 98, 92,
    49, 49, 49, 49, 49, 49, 49, 49, 8, 40, 49, 49, 49, 49, 49, 49, 49, 39, 8, 3,
    49, 49, 49, 49, 49, 39, 39, 29, 8, 5, 49, 49, 49, 39, 39, 39, 39, 19, 8, 6,
    49, 39, 39, 39, 39, 39, 29, 9, 8, 6, 39, 39, 39, 39, 39, 29, 29, 9, 8, 7,
    49, 49, 49, 49, 49, 49, 49, 49, 49, 99, 49, 49, 49, 49, 49, 49, 49, 49, 49, 99,
    49, 49, 49, 49, 49, 49, 49, 49, 49, 99, 49, 49, 49, 49, 49, 49, 49, 49, 49, 99,
    49, 49, 49, 49, 49, 49, 49, 49, 49, 9, 49, 49, 49, 49, 49, 49, 49, 49, 49, 9,
    49, 49, 49, 49, 49, 49, 49, 49, 49, 9, 49, 49, 49, 49, 49, 49, 49, 49, 49, 9,
    49, 49, 49, 49, 49, 49, 49, 49, 49, 9, 49, 49, 49, 49, 49, 49, 49, 49, 49, 9,
    90, 50, 50, 50, 50, 50, 50, 50, 50, 50, 90, 50, 50, 50, 50, 50, 50, 50, 50, 50,
    90, 50, 50, 50, 50, 50, 50, 50, 50, 50, 90, 50, 50, 50, 50, 50, 50, 50, 50, 50,
    90, 50, 50, 50, 50, 50, 50, 50, 50, 50, 0, 50, 50, 50, 50, 50, 50, 50, 50, 50,
    0, 50, 50, 50, 50, 50, 50, 50, 50, 50, 0, 50, 50, 50, 50, 50, 50, 50, 50, 50,
    0, 50, 50, 50, 50, 50, 50, 50, 50, 50, 0, 50, 50, 50, 50, 50, 50, 50, 50, 50,
    92, 91, 90, 70, 70, 60, 60, 60, 60, 60, 93, 91, 90, 70, 60, 60, 60, 60, 60, 50,
    93, 91, 80, 60, 60, 60, 60, 50, 50, 50, 94, 91, 70, 60, 60, 50, 50, 50, 50, 50,
    96, 91, 60, 50, 50, 50, 50, 50, 50, 50, 59, 1, 50, 50, 50, 50, 50, 50, 50, 50,
    7, 1, 40, 50, 50, 50, 50, 50, 50, 50, 4, 1, 30, 40, 40, 50, 50, 50, 50, 50,
    3, 1, 20, 40, 40, 40, 40, 50, 50, 50, 3, 1, 10, 30, 40, 40, 40, 40, 40, 50,
    94, 93, 92, 91, 90, 80, 70, 70, 70, 60, 95, 94, 92, 90, 90, 80, 70, 70, 60, 60,
    96, 94, 92, 90, 80, 70, 60, 60, 60, 60, 97, 95, 92, 90, 70, 60, 60, 60, 60, 60,
    89, 97, 92, 70, 60, 60, 50, 50, 50, 50, 59, 59, 2, 50, 50, 50, 50, 50, 50, 50,
    29, 8, 2, 30, 40, 40, 50, 50, 50, 50, 8, 5, 2, 10, 30, 40, 40, 40, 40, 40,
    6, 4, 2, 0, 20, 30, 40, 40, 40, 40, 5, 4, 2, 0, 10, 20, 30, 30, 40, 40,
    96, 95, 94, 93, 92, 91, 90, 90, 80, 70, 97, 96, 95, 93, 91, 90, 90, 80, 70, 70,
    98, 97, 95, 93, 91, 90, 80, 70, 70, 60, 99, 98, 96, 93, 90, 80, 70, 60, 60, 60,
    79, 89, 98, 93, 80, 60, 60, 60, 60, 50, 59, 59, 59, 3, 50, 50, 50, 50, 50, 50,
    39, 29, 9, 3, 20, 40, 40, 40, 40, 50, 19, 9, 6, 3, 0, 20, 30, 40, 40, 40,
    9, 7, 5, 3, 1, 10, 20, 30, 30, 40, 8, 6, 5, 3, 1, 0, 10, 20, 30, 30,
    98, 97, 96, 95, 94, 93, 92, 91, 90, 90, 99, 98, 97, 96, 94, 92, 91, 90, 90, 80,
    99, 99, 98, 96, 94, 92, 90, 90, 80, 70, 79, 89, 99, 97, 94, 91, 90, 80, 70, 70,
    69, 79, 79, 99, 94, 90, 70, 60, 60, 60, 59, 59, 59, 59, 4, 50, 50, 50, 50, 50,
    49, 39, 39, 9, 4, 10, 30, 40, 40, 40, 39, 29, 9, 7, 4, 1, 10, 20, 30, 30,
    19, 9, 8, 6, 4, 2, 0, 10, 20, 30, 9, 9, 7, 6, 4, 2, 1, 0, 10, 20,
    99, 99, 98, 97, 96, 95, 94, 93, 92, 91, 89, 99, 99, 98, 97, 95, 93, 92, 91, 90,
    79, 89, 99, 99, 97, 95, 93, 91, 90, 90, 79, 79, 89, 99, 98, 95, 92, 90, 80, 70,
    69, 69, 69, 79, 99, 95, 90, 70, 70, 60, 59, 59, 59, 59, 59, 5, 50, 50, 50, 50,
    49, 49, 49, 39, 19, 5, 0, 30, 30, 40, 39, 39, 29, 19, 8, 5, 2, 0, 20, 30,
    39, 29, 19, 9, 7, 5, 3, 1, 0, 10, 29, 19, 9, 8, 7, 5, 3, 2, 0, 0,
    79, 89, 99, 99, 98, 97, 96, 95, 94, 93, 79, 79, 89, 99, 99, 98, 96, 94, 93, 92,
    69, 79, 79, 89, 99, 98, 96, 94, 92, 91, 69, 69, 69, 79, 89, 99, 96, 93, 91, 90,
    59, 69, 69, 69, 69, 89, 96, 91, 80, 70, 59, 59, 59, 59, 59, 59, 6, 50, 50, 50,
    59, 49, 49, 49, 49, 29, 6, 0, 20, 30, 49, 49, 49, 39, 29, 9, 6, 3, 0, 10,
    49, 39, 39, 29, 19, 8, 6, 4, 2, 0, 39, 39, 29, 19, 9, 8, 6, 4, 3, 1,
    69, 79, 79, 79, 89, 99, 98, 97, 96, 95, 69, 69, 79, 79, 89, 99, 99, 97, 95, 94,
    69, 69, 69, 69, 79, 89, 99, 97, 95, 93, 69, 69, 69, 69, 69, 79, 99, 97, 94, 92,
    59, 59, 59, 59, 69, 69, 79, 97, 92, 80, 59, 59, 59, 59, 59, 59, 59, 7, 50, 50,
    59, 59, 59, 59, 49, 49, 39, 7, 1, 20, 49, 49, 49, 49, 49, 39, 19, 7, 4, 1,
    49, 49, 49, 49, 39, 29, 9, 7, 5, 3, 49, 49, 39, 39, 29, 19, 9, 7, 5, 4,
    69, 69, 69, 69, 69, 79, 79, 99, 98, 97, 59, 69, 69, 69, 69, 69, 79, 99, 98, 96,
    59, 59, 59, 69, 69, 69, 69, 89, 98, 96, 59, 59, 59, 59, 59, 69, 69, 79, 98, 95,
    59, 59, 59, 59, 59, 59, 59, 69, 98, 93, 59, 59, 59, 59, 59, 59, 59, 59, 8, 50,
    59, 59, 59, 59, 59, 59, 59, 49, 8, 2, 59, 59, 59, 59, 59, 49, 49, 39, 8, 5,
    59, 59, 59, 49, 49, 49, 49, 29, 8, 6, 59, 49, 49, 49, 49, 49, 39, 19, 8, 6,
    59, 59, 59, 59, 59, 59, 59, 59, 59, 99, 59, 59, 59, 59, 59, 59, 59, 59, 59, 99,
    59, 59, 59, 59, 59, 59, 59, 59, 59, 99, 59, 59, 59, 59, 59, 59, 59, 59, 59, 99,
    59, 59, 59, 59, 59, 59, 59, 59, 59, 99, 59, 59, 59, 59, 59, 59, 59, 59, 59, 9,
    59, 59, 59, 59, 59, 59, 59, 59, 59, 9, 59, 59, 59, 59, 59, 59, 59, 59, 59, 9,
    59, 59, 59, 59, 59, 59, 59, 59, 59, 9, 59, 59, 59, 59, 59, 59, 59, 59, 59, 9,
    90, 60, 60, 60, 60, 60, 60, 60, 60, 60, 90, 60, 60, 60, 60, 60, 60, 60, 60, 60,
    90, 60, 60, 60, 60, 60, 60, 60, 60, 60, 90, 60, 60, 60, 60, 60, 60, 60, 60, 60,
    90, 60, 60, 60, 60, 60, 60, 60, 60, 60, 90, 60, 60, 60, 60, 60, 60, 60, 60, 60,
    0, 60, 60, 60, 60, 60, 60, 60, 60, 60, 0, 60, 60, 60, 60, 60, 60, 60, 60, 60,
    0, 60, 60, 60, 60, 60, 60, 60, 60, 60, 0, 60, 60, 60, 60, 60, 60, 60, 60, 60,
    92, 91, 90, 90, 80, 70, 70, 70, 70, 70, 92, 91, 90, 80, 80, 70, 70, 70, 70, 70,
    92, 91, 90, 80, 70, 70, 70, 70, 70, 60, 93, 91, 90, 70, 70, 70, 70, 60, 60, 60,
    93, 91, 80, 70, 70, 60, 60, 60, 60, 60, 95, 91, 70, 60, 60, 60, 60, 60, 60, 60,
    69, 1, 60, 60, 60, 60, 60, 60, 60, 60, 8, 1, 50, 60, 60, 60, 60, 60, 60, 60,
    5, 1, 40, 50, 50, 60, 60, 60, 60, 60, 4, 1, 30, 50, 50, 50, 50, 60, 60, 60,
    94, 93, 92, 91, 90, 90, 90, 80, 80, 80, 94, 93, 92, 91, 90, 90, 80, 80, 80, 70,
    94, 93, 92, 91, 90, 90, 80, 80, 70, 70, 95, 94, 92, 90, 90, 80, 70, 70, 70, 70,
    96, 94, 92, 90, 80, 70, 70, 70, 70, 70, 99, 96, 92, 80, 70, 70, 60, 60, 60, 60,
    69, 69, 2, 60, 60, 60, 60, 60, 60, 60, 39, 9, 2, 40, 50, 50, 60, 60, 60, 60,
    9, 6, 2, 20, 40, 50, 50, 50, 50, 50, 7, 5, 2, 0, 30, 40, 50, 50, 50, 50,
    95, 95, 94, 93, 92, 91, 91, 90, 90, 90, 96, 95, 94, 93, 92, 91, 90, 90, 90, 80,
    96, 95, 94, 93, 92, 91, 90, 90, 80, 80, 97, 96, 95, 93, 91, 90, 90, 80, 80, 70,
    99, 97, 95, 93, 91, 90, 80, 70, 70, 70, 89, 99, 97, 93, 90, 70, 70, 70, 70, 60,
    69, 69, 69, 3, 60, 60, 60, 60, 60, 60, 49, 39, 9, 3, 30, 50, 50, 50, 50, 60,
    29, 9, 7, 3, 0, 30, 40, 50, 50, 50, 9, 8, 6, 3, 0, 20, 30, 40, 40, 50,
    97, 96, 96, 95, 94, 93, 92, 92, 91, 91, 97, 97, 96, 95, 94, 93, 92, 91, 91, 90,
    98, 97, 96, 95, 94, 93, 92, 91, 90, 90, 99, 98, 97, 96, 94, 92, 91, 90, 90, 80,
    89, 99, 98, 96, 94, 92, 90, 90, 80, 80, 79, 89, 89, 98, 94, 90, 80, 70, 70, 70,
    69, 69, 69, 69, 4, 60, 60, 60, 60, 60, 59, 49, 49, 19, 4, 20, 40, 50, 50, 50,
    49, 39, 19, 8, 4, 0, 20, 30, 40, 40, 29, 19, 9, 7, 4, 1, 0, 20, 30, 40,
    98, 98, 97, 97, 96, 95, 94, 93, 93, 92, 99, 98, 98, 97, 96, 95, 94, 93, 92, 92,
    99, 99, 98, 97, 96, 95, 94, 93, 92, 91, 89, 99, 99, 98, 97, 95, 93, 92, 91, 90,
    89, 89, 99, 99, 97, 95, 93, 91, 90, 80, 79, 79, 79, 89, 99, 95, 91, 80, 80, 70,
    69, 69, 69, 69, 69, 5, 60, 60, 60, 60, 59, 59, 59, 49, 29, 5, 10, 40, 40, 50,
    49, 49, 39, 29, 9, 5, 1, 10, 30, 40, 49, 39, 29, 9, 8, 5, 2, 0, 10, 20,
    99, 99, 99, 98, 98, 97, 96, 95, 94, 94, 89, 99, 99, 99, 98, 97, 96, 95, 94, 93,
    89, 89, 99, 99, 98, 97, 96, 95, 94, 93, 79, 89, 89, 99, 99, 98, 96, 94, 93, 92,
    79, 79, 79, 89, 99, 98, 96, 94, 92, 90, 69, 79, 79, 79, 79, 99, 96, 92, 90, 80,
    69, 69, 69, 69, 69, 69, 6, 60, 60, 60, 69, 59, 59, 59, 59, 39, 6, 0, 30, 40,
    59, 59, 59, 49, 39, 9, 6, 2, 0, 20, 59, 49, 49, 39, 29, 9, 6, 3, 1, 0,
    89, 89, 89, 99, 99, 99, 98, 97, 96, 95, 79, 89, 89, 89, 99, 99, 98, 97, 96, 95,
    79, 79, 89, 89, 99, 99, 98, 97, 96, 95, 79, 79, 79, 79, 89, 99, 99, 97, 95, 94,
    79, 79, 79, 79, 79, 89, 99, 97, 95, 93, 69, 69, 69, 69, 79, 79, 89, 97, 93, 90,
    69, 69, 69, 69, 69, 69, 69, 7, 60, 60, 69, 69, 69, 69, 59, 59, 49, 7, 0, 30,
    59, 59, 59, 59, 59, 49, 29, 7, 3, 0, 59, 59, 59, 59, 49, 39, 9, 7, 4, 2,
    79, 79, 79, 79, 79, 89, 99, 99, 98, 97, 79, 79, 79, 79, 79, 89, 89, 99, 98, 97,
    69, 79, 79, 79, 79, 79, 89, 99, 98, 97, 69, 69, 69, 79, 79, 79, 79, 99, 98, 96,
    69, 69, 69, 69, 69, 79, 79, 89, 98, 96, 69, 69, 69, 69, 69, 69, 69, 79, 98, 94,
    69, 69, 69, 69, 69, 69, 69, 69, 8, 60, 69, 69, 69, 69, 69, 69, 69, 59, 8, 1,
    69, 69, 69, 69, 69, 59, 59, 49, 8, 4, 69, 69, 69, 59, 59, 59, 59, 39, 8, 5,
    69, 69, 69, 69, 69, 69, 69, 69, 69, 99, 69, 69, 69, 69, 69, 69, 69, 69, 69, 99,
    69, 69, 69, 69, 69, 69, 69, 69, 69, 99, 69, 69, 69, 69, 69, 69, 69, 69, 69, 99,
    69, 69, 69, 69, 69, 69, 69, 69, 69, 99, 69, 69, 69, 69, 69, 69, 69, 69, 69, 99,
    69, 69, 69, 69, 69, 69, 69, 69, 69, 9, 69, 69, 69, 69, 69, 69, 69, 69, 69, 9,
    69, 69, 69, 69, 69, 69, 69, 69, 69, 9, 69, 69, 69, 69, 69, 69, 69, 69, 69, 9,
    90, 70, 70, 70, 70, 70, 70, 70, 70, 70, 90, 70, 70, 70, 70, 70, 70, 70, 70, 70,
    90, 70, 70, 70, 70, 70, 70, 70, 70, 70, 90, 70, 70, 70, 70, 70, 70, 70, 70, 70,
    90, 70, 70, 70, 70, 70, 70, 70, 70, 70, 90, 70, 70, 70, 70, 70, 70, 70, 70, 70,
    90, 70, 70, 70, 70, 70, 70, 70, 70, 70, 0, 70, 70, 70, 70, 70, 70, 70, 70, 70,
    0, 70, 70, 70, 70, 70, 70, 70, 70, 70, 0, 70, 70, 70, 70, 70, 70, 70, 70, 70,
    92, 91, 90, 90, 90, 90, 80, 80, 80, 80, 92, 91, 90, 90, 90, 80, 80, 80, 80, 80,
    92, 91, 90, 90, 90, 80, 80, 80, 80, 80, 92, 91, 90, 90, 80, 80, 80, 80, 80, 70,
    92, 91, 90, 80, 80, 80, 80, 70, 70, 70, 93, 91, 90, 80, 80, 70, 70, 70, 70, 70,
    94, 91, 80, 70, 70, 70, 70, 70, 70, 70, 79, 1, 70, 70, 70, 70, 70, 70, 70, 70,
    9, 1, 60, 70, 70, 70, 70, 70, 70, 70, 5, 1, 50, 60, 60, 70, 70, 70, 70, 70,
    93, 93, 92, 91, 91, 90, 90, 90, 90, 90, 93, 93, 92, 91, 91, 90, 90, 90, 90, 90,
    94, 93, 92, 91, 90, 90, 90, 90, 90, 80, 94, 93, 92, 91, 90, 90, 90, 90, 80, 80,
    94, 93, 92, 91, 90, 90, 80, 80, 80, 80, 95, 94, 92, 90, 90, 80, 80, 80, 80, 80,
    98, 95, 92, 90, 80, 80, 70, 70, 70, 70, 79, 79, 2, 70, 70, 70, 70, 70, 70, 70,
    49, 9, 2, 50, 60, 60, 70, 70, 70, 70, 9, 6, 2, 30, 50, 60, 60, 60, 60, 60,
    95, 94, 94, 93, 92, 92, 91, 91, 91, 90, 95, 94, 94, 93, 92, 92, 91, 91, 90, 90,
    95, 95, 94, 93, 92, 91, 91, 90, 90, 90, 95, 95, 94, 93, 92, 91, 91, 90, 90, 90,
    96, 95, 94, 93, 92, 91, 90, 90, 90, 80, 97, 96, 95, 93, 91, 90, 90, 80, 80, 80,
    99, 99, 96, 93, 90, 80, 80, 80, 80, 70, 79, 79, 79, 3, 70, 70, 70, 70, 70, 70,
    59, 49, 19, 3, 40, 60, 60, 60, 60, 70, 39, 19, 7, 3, 10, 40, 50, 60, 60, 60,
    96, 96, 95, 95, 94, 93, 93, 92, 92, 92, 96, 96, 95, 95, 94, 93, 93, 92, 92, 91,
    97, 96, 96, 95, 94, 93, 92, 92, 91, 91, 97, 96, 96, 95, 94, 93, 92, 92, 91, 90,
    98, 97, 96, 95, 94, 93, 92, 91, 90, 90, 99, 98, 97, 96, 94, 92, 91, 90, 90, 90,
    89, 99, 99, 97, 94, 91, 90, 80, 80, 80, 79, 79, 79, 79, 4, 70, 70, 70, 70, 70,
    69, 59, 59, 29, 4, 30, 50, 60, 60, 60, 59, 49, 29, 8, 4, 0, 30, 40, 50, 50,
    97, 97, 97, 96, 96, 95, 94, 94, 93, 93, 98, 97, 97, 96, 96, 95, 94, 94, 93, 93,
    98, 98, 97, 97, 96, 95, 94, 93, 93, 92, 99, 98, 97, 97, 96, 95, 94, 93, 93, 92,
    99, 99, 98, 97, 96, 95, 94, 93, 92, 91, 99, 99, 99, 98, 97, 95, 93, 92, 91, 90,
    89, 89, 89, 99, 98, 95, 92, 90, 90, 80, 79, 79, 79, 79, 79, 5, 70, 70, 70, 70,
    69, 69, 69, 59, 39, 5, 20, 50, 50, 60, 59, 59, 49, 39, 9, 5, 1, 20, 40, 50,
    99, 98, 98, 98, 97, 97, 96, 95, 95, 94, 99, 99, 98, 98, 97, 97, 96, 95, 95, 94,
    99, 99, 99, 98, 98, 97, 96, 95, 94, 94, 99, 99, 99, 98, 98, 97, 96, 95, 94, 94,
    89, 99, 99, 99, 98, 97, 96, 95, 94, 93, 89, 89, 89, 99, 99, 98, 96, 94, 93, 92,
    79, 89, 89, 89, 89, 99, 96, 93, 90, 90, 79, 79, 79, 79, 79, 79, 6, 70, 70, 70,
    79, 69, 69, 69, 69, 49, 6, 10, 40, 50, 69, 69, 69, 59, 49, 19, 6, 2, 10, 30,
    99, 99, 99, 99, 99, 98, 98, 97, 96, 96, 99, 99, 99, 99, 99, 98, 98, 97, 96, 96,
    89, 99, 99, 99, 99, 99, 98, 97, 96, 95, 89, 89, 99, 99, 99, 99, 98, 97, 96, 95,
    89, 89, 89, 89, 99, 99, 98, 97, 96, 95, 89, 89, 89, 89, 89, 99, 99, 97, 95, 94,
    79, 79, 79, 79, 89, 89, 99, 97, 94, 91, 79, 79, 79, 79, 79, 79, 79, 7, 70, 70,
    79, 79, 79, 79, 69, 69, 59, 7, 0, 40, 69, 69, 69, 69, 69, 59, 39, 7, 3, 0,
    89, 89, 89, 89, 99, 99, 99, 99, 98, 97, 89, 89, 89, 89, 89, 99, 99, 99, 98, 97,
    89, 89, 89, 89, 89, 99, 99, 99, 98, 97, 79, 89, 89, 89, 89, 89, 99, 99, 98, 97,
    79, 79, 79, 89, 89, 89, 89, 99, 98, 97, 79, 79, 79, 79, 79, 89, 89, 99, 98, 96,
    79, 79, 79, 79, 79, 79, 79, 89, 98, 95, 79, 79, 79, 79, 79, 79, 79, 79, 8, 70,
    79, 79, 79, 79, 79, 79, 79, 69, 8, 0, 79, 79, 79, 79, 79, 69, 69, 59, 8, 4,
    79, 79, 79, 79, 79, 79, 79, 79, 79, 99, 79, 79, 79, 79, 79, 79, 79, 79, 79, 99,
    79, 79, 79, 79, 79, 79, 79, 79, 79, 99, 79, 79, 79, 79, 79, 79, 79, 79, 79, 99,
    79, 79, 79, 79, 79, 79, 79, 79, 79, 99, 79, 79, 79, 79, 79, 79, 79, 79, 79, 99,
    79, 79, 79, 79, 79, 79, 79, 79, 79, 99, 79, 79, 79, 79, 79, 79, 79, 79, 79, 9,
    79, 79, 79, 79, 79, 79, 79, 79, 79, 9, 79, 79, 79, 79, 79, 79, 79, 79, 79, 9,
    90, 80, 80, 80, 80, 80, 80, 80, 80, 80, 90, 80, 80, 80, 80, 80, 80, 80, 80, 80,
    90, 80, 80, 80, 80, 80, 80, 80, 80, 80, 90, 80, 80, 80, 80, 80, 80, 80, 80, 80,
    90, 80, 80, 80, 80, 80, 80, 80, 80, 80, 90, 80, 80, 80, 80, 80, 80, 80, 80, 80,
    90, 80, 80, 80, 80, 80, 80, 80, 80, 80, 90, 80, 80, 80, 80, 80, 80, 80, 80, 80,
    0, 80, 80, 80, 80, 80, 80, 80, 80, 80, 0, 80, 80, 80, 80, 80, 80, 80, 80, 80,
    92, 91, 90, 90, 90, 90, 90, 90, 90, 90, 92, 91, 90, 90, 90, 90, 90, 90, 90, 90,
    92, 91, 90, 90, 90, 90, 90, 90, 90, 90, 92, 91, 90, 90, 90, 90, 90, 90, 90, 90,
    92, 91, 90, 90, 90, 90, 90, 90, 90, 80, 92, 91, 90, 90, 90, 90, 90, 80, 80, 80,
    92, 91, 90, 90, 90, 80, 80, 80, 80, 80, 93, 91, 90, 80, 80, 80, 80, 80, 80, 80,
    89, 1, 80, 80, 80, 80, 80, 80, 80, 80, 9, 1, 70, 80, 80, 80, 80, 80, 80, 80,
    93, 93, 92, 91, 91, 91, 91, 91, 90, 90, 93, 93, 92, 91, 91, 91, 91, 90, 90, 90,
    93, 93, 92, 91, 91, 91, 90, 90, 90, 90, 93, 93, 92, 91, 91, 91, 90, 90, 90, 90,
    93, 93, 92, 91, 91, 90, 90, 90, 90, 90, 94, 93, 92, 91, 90, 90, 90, 90, 90, 90,
    94, 93, 92, 91, 90, 90, 90, 90, 90, 90, 96, 94, 92, 90, 90, 90, 80, 80, 80, 80,
    89, 89, 2, 80, 80, 80, 80, 80, 80, 80, 59, 19, 2, 60, 70, 70, 80, 80, 80, 80,
    94, 94, 94, 93, 92, 92, 92, 92, 92, 91, 94, 94, 94, 93, 92, 92, 92, 92, 91, 91,
    94, 94, 94, 93, 92, 92, 92, 91, 91, 91, 94, 94, 94, 93, 92, 92, 92, 91, 91, 91,
    95, 94, 94, 93, 92, 92, 91, 91, 91, 90, 95, 95, 94, 93, 92, 91, 91, 90, 90, 90,
    96, 95, 94, 93, 92, 91, 90, 90, 90, 90, 98, 97, 95, 93, 91, 90, 90, 90, 90, 80,
    89, 89, 89, 3, 80, 80, 80, 80, 80, 80, 69, 59, 29, 3, 50, 70, 70, 70, 70, 80,
    95, 95, 95, 95, 94, 93, 93, 93, 93, 93, 95, 95, 95, 95, 94, 93, 93, 93, 93, 92,
    96, 95, 95, 95, 94, 93, 93, 93, 92, 92, 96, 95, 95, 95, 94, 93, 93, 93, 92, 92,
    96, 96, 95, 95, 94, 93, 93, 92, 92, 92, 97, 96, 96, 95, 94, 93, 92, 92, 91, 91,
    98, 97, 96, 95, 94, 93, 92, 91, 90, 90, 99, 99, 98, 96, 94, 92, 90, 90, 90, 90,
    89, 89, 89, 89, 4, 80, 80, 80, 80, 80, 79, 69, 69, 39, 4, 40, 60, 70, 70, 70,
    96, 96, 96, 96, 96, 95, 94, 94, 94, 94, 97, 96, 96, 96, 96, 95, 94, 94, 94, 94,
    97, 97, 96, 96, 96, 95, 94, 94, 94, 93, 97, 97, 96, 96, 96, 95, 94, 94, 94, 93,
    97, 97, 97, 96, 96, 95, 94, 94, 93, 93, 98, 98, 97, 97, 96, 95, 94, 93, 93, 92,
    99, 99, 98, 97, 96, 95, 94, 93, 92, 91, 99, 99, 99, 99, 97, 95, 93, 91, 90, 90,
    89, 89, 89, 89, 89, 5, 80, 80, 80, 80, 79, 79, 79, 69, 49, 5, 30, 60, 60, 70,
    98, 97, 97, 97, 97, 97, 96, 95, 95, 95, 98, 98, 97, 97, 97, 97, 96, 95, 95, 95,
    98, 98, 98, 97, 97, 97, 96, 95, 95, 95, 98, 98, 98, 97, 97, 97, 96, 95, 95, 95,
    99, 98, 98, 98, 97, 97, 96, 95, 95, 94, 99, 99, 99, 98, 98, 97, 96, 95, 94, 94,
    99, 99, 99, 99, 98, 97, 96, 95, 94, 93, 89, 99, 99, 99, 99, 98, 96, 94, 92, 91,
    89, 89, 89, 89, 89, 89, 6, 80, 80, 80, 89, 79, 79, 79, 79, 59, 6, 20, 50, 60,
    99, 99, 98, 98, 98, 98, 98, 97, 96, 96, 99, 99, 99, 98, 98, 98, 98, 97, 96, 96,
    99, 99, 99, 99, 98, 98, 98, 97, 96, 96, 99, 99, 99, 99, 98, 98, 98, 97, 96, 96,
    99, 99, 99, 99, 99, 98, 98, 97, 96, 96, 99, 99, 99, 99, 99, 99, 98, 97, 96, 95,
    99, 99, 99, 99, 99, 99, 98, 97, 96, 95, 89, 89, 89, 89, 99, 99, 99, 97, 95, 93,
    89, 89, 89, 89, 89, 89, 89, 7, 80, 80, 89, 89, 89, 89, 79, 79, 69, 7, 10, 50,
    99, 99, 99, 99, 99, 99, 99, 99, 98, 97, 99, 99, 99, 99, 99, 99, 99, 99, 98, 97,
    99, 99, 99, 99, 99, 99, 99, 99, 98, 97, 99, 99, 99, 99, 99, 99, 99, 99, 98, 97,
    89, 99, 99, 99, 99, 99, 99, 99, 98, 97, 89, 89, 89, 99, 99, 99, 99, 99, 98, 97,
    89, 89, 89, 89, 89, 99, 99, 99, 98, 97, 89, 89, 89, 89, 89, 89, 89, 99, 98, 96,
    89, 89, 89, 89, 89, 89, 89, 89, 8, 80, 89, 89, 89, 89, 89, 89, 89, 79, 8, 0,
    89, 89, 89, 89, 89, 89, 89, 89, 89, 99, 89, 89, 89, 89, 89, 89, 89, 89, 89, 99,
    89, 89, 89, 89, 89, 89, 89, 89, 89, 99, 89, 89, 89, 89, 89, 89, 89, 89, 89, 99,
    89, 89, 89, 89, 89, 89, 89, 89, 89, 99, 89, 89, 89, 89, 89, 89, 89, 89, 89, 99,
    89, 89, 89, 89, 89, 89, 89, 89, 89, 99, 89, 89, 89, 89, 89, 89, 89, 89, 89, 99,
    89, 89, 89, 89, 89, 89, 89, 89, 89, 9, 89, 89, 89, 89, 89, 89, 89, 89, 89, 9,
    90, 90, 90, 90, 90, 90, 90, 90, 90, 90, 90, 90, 90, 90, 90, 90, 90, 90, 90, 90,
    90, 90, 90, 90, 90, 90, 90, 90, 90, 90, 90, 90, 90, 90, 90, 90, 90, 90, 90, 90,
    90, 90, 90, 90, 90, 90, 90, 90, 90, 90, 90, 90, 90, 90, 90, 90, 90, 90, 90, 90,
    90, 90, 90, 90, 90, 90, 90, 90, 90, 90, 90, 90, 90, 90, 90, 90, 90, 90, 90, 90,
    90, 90, 90, 90, 90, 90, 90, 90, 90, 90, 0, 90, 90, 90, 90, 90, 90, 90, 90, 90,
    92, 91, 90, 90, 90, 90, 90, 90, 90, 90, 92, 91, 90, 90, 90, 90, 90, 90, 90, 90,
    92, 91, 90, 90, 90, 90, 90, 90, 90, 90, 92, 91, 90, 90, 90, 90, 90, 90, 90, 90,
    92, 91, 90, 90, 90, 90, 90, 90, 90, 90, 92, 91, 90, 90, 90, 90, 90, 90, 90, 90,
    92, 91, 90, 90, 90, 90, 90, 90, 90, 90, 92, 91, 90, 90, 90, 90, 90, 90, 90, 90,
    92, 91, 90, 90, 90, 90, 90, 90, 90, 90, 99, 1, 90, 90, 90, 90, 90, 90, 90, 90,
    93, 93, 92, 91, 91, 91, 91, 91, 91, 91, 93, 93, 92, 91, 91, 91, 91, 91, 91, 91,
    93, 93, 92, 91, 91, 91, 91, 91, 91, 91, 93, 93, 92, 91, 91, 91, 91, 91, 91, 91,
    93, 93, 92, 91, 91, 91, 91, 91, 91, 91, 93, 93, 92, 91, 91, 91, 91, 91, 91, 91,
    93, 93, 92, 91, 91, 91, 91, 91, 90, 90, 93, 93, 92, 91, 91, 91, 90, 90, 90, 90,
    94, 93, 92, 91, 90, 90, 90, 90, 90, 90, 99, 99, 2, 90, 90, 90, 90, 90, 90, 90,
    94, 94, 94, 93, 92, 92, 92, 92, 92, 92, 94, 94, 94, 93, 92, 92, 92, 92, 92, 92,
    94, 94, 94, 93, 92, 92, 92, 92, 92, 92, 94, 94, 94, 93, 92, 92, 92, 92, 92, 92,
    94, 94, 94, 93, 92, 92, 92, 92, 92, 92, 94, 94, 94, 93, 92, 92, 92, 92, 92, 92,
    94, 94, 94, 93, 92, 92, 92, 92, 92, 91, 94, 94, 94, 93, 92, 92, 92, 91, 91, 91,
    95, 95, 94, 93, 92, 91, 91, 90, 90, 90, 99, 99, 99, 3, 90, 90, 90, 90, 90, 90,
    95, 95, 95, 95, 94, 93, 93, 93, 93, 93, 95, 95, 95, 95, 94, 93, 93, 93, 93, 93,
    95, 95, 95, 95, 94, 93, 93, 93, 93, 93, 95, 95, 95, 95, 94, 93, 93, 93, 93, 93,
    95, 95, 95, 95, 94, 93, 93, 93, 93, 93, 95, 95, 95, 95, 94, 93, 93, 93, 93, 93,
    95, 95, 95, 95, 94, 93, 93, 93, 93, 93, 96, 95, 95, 95, 94, 93, 93, 93, 92, 92,
    97, 96, 96, 95, 94, 93, 92, 92, 91, 91, 99, 99, 99, 99, 4, 90, 90, 90, 90, 90,
    96, 96, 96, 96, 96, 95, 94, 94, 94, 94, 96, 96, 96, 96, 96, 95, 94, 94, 94, 94,
    96, 96, 96, 96, 96, 95, 94, 94, 94, 94, 96, 96, 96, 96, 96, 95, 94, 94, 94, 94,
    96, 96, 96, 96, 96, 95, 94, 94, 94, 94, 96, 96, 96, 96, 96, 95, 94, 94, 94, 94,
    96, 96, 96, 96, 96, 95, 94, 94, 94, 94, 97, 97, 96, 96, 96, 95, 94, 94, 94, 93,
    98, 98, 97, 97, 96, 95, 94, 93, 93, 92, 99, 99, 99, 99, 99, 5, 90, 90, 90, 90,
    97, 97, 97, 97, 97, 97, 96, 95, 95, 95, 97, 97, 97, 97, 97, 97, 96, 95, 95, 95,
    97, 97, 97, 97, 97, 97, 96, 95, 95, 95, 97, 97, 97, 97, 97, 97, 96, 95, 95, 95,
    97, 97, 97, 97, 97, 97, 96, 95, 95, 95, 97, 97, 97, 97, 97, 97, 96, 95, 95, 95,
    98, 97, 97, 97, 97, 97, 96, 95, 95, 95, 98, 98, 98, 97, 97, 97, 96, 95, 95, 95,
    99, 99, 99, 98, 98, 97, 96, 95, 94, 94, 99, 99, 99, 99, 99, 99, 6, 90, 90, 90,
    98, 98, 98, 98, 98, 98, 98, 97, 96, 96, 98, 98, 98, 98, 98, 98, 98, 97, 96, 96,
    98, 98, 98, 98, 98, 98, 98, 97, 96, 96, 98, 98, 98, 98, 98, 98, 98, 97, 96, 96,
    98, 98, 98, 98, 98, 98, 98, 97, 96, 96, 98, 98, 98, 98, 98, 98, 98, 97, 96, 96,
    99, 99, 98, 98, 98, 98, 98, 97, 96, 96, 99, 99, 99, 99, 98, 98, 98, 97, 96, 96,
    99, 99, 99, 99, 99, 99, 98, 97, 96, 95, 99, 99, 99, 99, 99, 99, 99, 7, 90, 90,
    99, 99, 99, 99, 99, 99, 99, 99, 98, 97, 99, 99, 99, 99, 99, 99, 99, 99, 98, 97,
    99, 99, 99, 99, 99, 99, 99, 99, 98, 97, 99, 99, 99, 99, 99, 99, 99, 99, 98, 97,
    99, 99, 99, 99, 99, 99, 99, 99, 98, 97, 99, 99, 99, 99, 99, 99, 99, 99, 98, 97,
    99, 99, 99, 99, 99, 99, 99, 99, 98, 97, 99, 99, 99, 99, 99, 99, 99, 99, 98, 97,
    99, 99, 99, 99, 99, 99, 99, 99, 98, 97, 99, 99, 99, 99, 99, 99, 99, 99, 8, 90,
    99, 99, 99, 99, 99, 99, 99, 99, 99, 99, 99, 99, 99, 99, 99, 99, 99, 99, 99, 99,
    99, 99, 99, 99, 99, 99, 99, 99, 99, 99, 99, 99, 99, 99, 99, 99, 99, 99, 99, 99,
    99, 99, 99, 99, 99, 99, 99, 99, 99, 99, 99, 99, 99, 99, 99, 99, 99, 99, 99, 99,
    99, 99, 99, 99, 99, 99, 99, 99, 99, 99, 99, 99, 99, 99, 99, 99, 99, 99, 99, 99,
    99, 99, 99, 99, 99, 99, 99, 99, 99, 99, 99, 99, 99, 99, 99, 99, 99, 99, 99, 9,
};

/* The constant that utilities::CompassDir::differences has. */
static const uint64_t utilities__CompassDir__differences__2_0[9] = {
    0, 1, 0, UINT64_C(18446744073709551615), 1, 1, UINT64_C(18446744073709551615), UINT64_C(18446744073709551615), 0,
};

/* The constant that utilities::CompassDir::differences has. */
static const uint64_t utilities__CompassDir__differences__2_1[9] = {
    UINT64_C(18446744073709551615), 0, 1, 0, UINT64_C(18446744073709551615), 1, 1, UINT64_C(18446744073709551615), 0,
};

/* A constant that leg_reader::is_marked lends. */
static const uint8_t leg_reader__is_marked__lent_1[3] = { 76, 69, 71 };

/* A constant that leg_writer::put_head lends. */
static const uint8_t leg_writer__put_head__lent_2[5] = { 76, 69, 71, 1, 0 };

/* A constant that utilities::CompassDir::points lends. */
static const utilities__CompassDir utilities__CompassDir__points__lent_3 = { 8 };

/* The sum modulo 4294967296. */
MAY_WRAP static inline uint32_t wrapping_add_u32(uint32_t a, uint32_t b)
{
    return a + b;
}

/* The sum of two signed words, which is proved to fit: as unsigned words they have the same sum modulo 2 to the 64. */
MAY_WRAP static inline uint64_t signed_sum(uint64_t a, uint64_t b)
{
    return a + b;
}

/* The product of two signed words, which is proved to fit: as unsigned words they have the same product modulo 2 to the 64. */
MAY_WRAP static inline uint64_t signed_product(uint64_t a, uint64_t b)
{
    return a * b;
}

/* Whether a signed word is at most another, told in the same way. */
static inline bool signed_at_most(uint64_t a, uint64_t b)
{
    return (a ^ UINT64_C(0x8000000000000000)) <= (b ^ UINT64_C(0x8000000000000000));
}

/* One of two numbers, without a branch: the first where the bool holds. */
static inline uint8_t choose_uint8_t(bool first, uint8_t a, uint8_t b)
{
    uint32_t mask = (uint32_t)first * UINT8_MAX;
    return (uint8_t)(((uint32_t)a & mask) | ((uint32_t)b & (mask ^ UINT8_MAX)));
}

/* One of two numbers, without a branch: the first where the bool holds. */
static inline uint32_t choose_uint32_t(bool first, uint32_t a, uint32_t b)
{
    uint32_t mask = (uint32_t)first * UINT32_MAX;
    return (((uint32_t)a & mask) | ((uint32_t)b & (mask ^ UINT32_MAX)));
}

/* One of two numbers, without a branch: the first where the bool holds. */
static inline uint64_t choose_uint64_t(bool first, uint64_t a, uint64_t b)
{
    uint64_t mask = (uint64_t)first * UINT64_MAX;
    return (((uint64_t)a & mask) | ((uint64_t)b & (mask ^ UINT64_MAX)));
}

/* The part of lent memory that begins so many bytes on. Where nothing is lent the pointer may be NULL, and NULL enters no sum. */
static inline const uint8_t *part(const uint8_t *at, uint64_t bytes)
{
    return bytes == 0 ? at : at + bytes;
}

/* The same of memory that is lent for writing. */
static inline uint8_t *part_to_write(uint8_t *at, uint64_t bytes)
{
    return bytes == 0 ? at : at + bytes;
}

/* core::bool::then_some at &[u32] */
IN_LINE core__option__Option core__bool__then_some(bool x1, slice_const_uint32_t x2)
{
    core__option__Option x4;
    if (x1) {
        x4 = (core__option__Option){ .tag = UINT8_C(1), .v1_f1 = x2 };
    } else {
        x4 = (core__option__Option){ .tag = UINT8_C(0) };
    }
    return x4;
}

/* core::simd::chunks::arrays at u8, 100 */
IN_LINE slice_const_uint8_t core__simd__chunks__arrays(slice_const_uint8_t x1, uint64_t x2)
{
    slice_const_uint8_t x3;
    x3 = (slice_const_uint8_t){ .at = x1.at, .length = x2 };
    return x3;
}

/* core::slice::arrays::first_unchecked at [u8; 100] */
IN_LINE const uint8_t *core__slice__arrays__first_unchecked(slice_const_uint8_t x1)
{
    return x1.at + (UINT64_C(0) * (uint64_t)sizeof(array_100_uint8_t));
}

/* core::slice::arrays::as_array_ref at u8, 100 */
IN_LINE const uint8_t *core__slice__arrays__as_array_ref(slice_const_uint8_t x1)
{
    slice_const_uint8_t x2;
    x2 = core__simd__chunks__arrays(x1, UINT64_C(1));
    return core__slice__arrays__first_unchecked(x2);
}

/* core::array::clones::ok at &[u8; 100], core::convert::lends::TryFromSliceError */
IN_LINE core__result__Result_5 core__array__clones__ok(const uint8_t *x1)
{
    return (core__result__Result_5){ .tag = UINT8_C(0), .v0_f1 = x1 };
}

/* core::convert::lends::RefArrayTryFromRefSlice::try_from at u8, 100 */
IN_LINE core__result__Result_5 core__convert__lends__RefArrayTryFromRefSlice__try_from(slice_const_uint8_t x1)
{
    const uint8_t *x5;
    if (x1.length != UINT64_C(100)) {
        return (core__result__Result_5){ .tag = UINT8_C(1) };
    }
    x5 = core__slice__arrays__as_array_ref(x1);
    return core__array__clones__ok(x5);
}

/* refusals::Refusal::number */
IN_LINE uint8_t refusals__Refusal__number(refusals__Refusal x1)
{
    uint8_t x2;
    switch (x1.tag) {
    case 0:
        x2 = UINT8_C(1);
        break;
    case 1:
        x2 = UINT8_C(2);
        break;
    case 2:
        x2 = UINT8_C(3);
        break;
    case 3:
        x2 = UINT8_C(4);
        break;
    case 4:
        x2 = UINT8_C(5);
        break;
    case 5:
        x2 = UINT8_C(6);
        break;
    case 6:
        x2 = UINT8_C(7);
        break;
    case 7:
        x2 = UINT8_C(8);
        break;
    case 8:
        x2 = UINT8_C(9);
        break;
    case 9:
        x2 = UINT8_C(10);
        break;
    case 10:
        x2 = UINT8_C(11);
        break;
    case 11:
        x2 = UINT8_C(12);
        break;
    case 12:
        x2 = UINT8_C(13);
        break;
    case 13:
        x2 = UINT8_C(14);
        break;
    case 14:
        x2 = UINT8_C(15);
        break;
    case 15:
        x2 = UINT8_C(16);
        break;
    case 16:
        x2 = UINT8_C(17);
        break;
    case 17:
        x2 = UINT8_C(18);
        break;
    case 18:
        x2 = UINT8_C(19);
        break;
    case 19:
        x2 = UINT8_C(20);
        break;
    default:
        x2 = UINT8_C(21);
        break;
    }
    return x2;
}

/* integration_field::IntegrationField::zeros */
NOT_IN_LINE HanjolumIntegrationField integration_field__IntegrationField__zeros(void)
{
    HanjolumIntegrationField x0;
    array_100_uint32_t x1;
    array_100_uint64_t x2;
    array_100_uint8_t x3;
    x1 = (array_100_uint32_t){ { 0 } };
    x2 = (array_100_uint64_t){ { 0 } };
    x3 = (array_100_uint8_t){ { 0 } };
    memcpy(x0.field, x1.at, sizeof x0.field);
    memcpy(x0.los_corners, x2.at, sizeof x0.los_corners);
    x0.count = UINT64_C(0);
    memcpy(x0.positions, x3.at, sizeof x0.positions);
    return x0;
}

/* integration_field::refused */
NOT_IN_LINE HanjolumBuildAnswer integration_field__refused(uint8_t x1)
{
    HanjolumIntegrationField x2;
    x2 = integration_field__IntegrationField__zeros();
    return (HanjolumBuildAnswer){ .number = x1, .field = x2, .waves = UINT64_C(0) };
}

/* core::slice::chunk_mut::as_array_mut at u8, 100 */
IN_LINE uint8_t *core__slice__chunk_mut__as_array_mut(slice_uint8_t x1)
{
    uint8_t *x2;
    x2 = x1.at;
    return x2;
}

/* core::slice::chunk_mut::slice+T::as_mut_array at u8, 100 */
IN_LINE core__option__Option_3 core__slice__chunk_mut__slice_T__as_mut_array(slice_uint8_t x1)
{
    uint8_t *x4;
    if (x1.length != UINT64_C(100)) {
        return (core__option__Option_3){ .tag = UINT8_C(0) };
    }
    x4 = core__slice__chunk_mut__as_array_mut((slice_uint8_t){ .at = x1.at, .length = x1.length });
    return (core__option__Option_3){ .tag = UINT8_C(1), .v1_f1 = x4 };
}

/* core::slice::index::UsizeSliceIndexRefSlice::pick at u8 */
IN_LINE core__option__Option_9 core__slice__index__UsizeSliceIndexRefSlice__pick(uint64_t x1, slice_const_uint8_t x2)
{
    core__option__Option_9 x5;
    const uint8_t *x7;
    if (x1 < x2.length) {
        x7 = part(x2.at, x1 * UINT64_C(1));
        x5 = (core__option__Option_9){ .tag = UINT8_C(1), .v1_f1 = x7 };
    } else {
        x5 = (core__option__Option_9){ .tag = UINT8_C(0) };
    }
    return x5;
}

/* core::slice::slice+T::get at u8, u64, &u8 */
IN_LINE core__option__Option_9 core__slice__slice_T__get(slice_const_uint8_t x1, uint64_t x2)
{
    return core__slice__index__UsizeSliceIndexRefSlice__pick(x2, x1);
}

/* core::option::Option::unwrap at &u8 */
IN_LINE const uint8_t *core__option__Option__unwrap(core__option__Option_9 x1)
{
    return x1.v1_f1;
}

/* core::option::more::Option+ref+T::copied at u8 */
IN_LINE core__option__Option_8 core__option__more__Option_ref_T__copied(core__option__Option_9 x1)
{
    core__option__Option_8 x2;
    const uint8_t *x3;
    switch (x1.tag) {
    case 1:
        x3 = core__option__Option__unwrap(x1);
        x2 = (core__option__Option_8){ .tag = UINT8_C(1), .v1_f1 = *x3 };
        break;
    default:
        x2 = (core__option__Option_8){ .tag = UINT8_C(0) };
        break;
    }
    return x2;
}

/* core::option::Option::unwrap_or at u8 */
IN_LINE uint8_t core__option__Option__unwrap_or_2(core__option__Option_8 x1, uint8_t x2)
{
    uint8_t x4;
    switch (x1.tag) {
    case 1:
        x4 = x1.v1_f1;
        break;
    default:
        x4 = x2;
        break;
    }
    return x4;
}

/* route::byte_at */
static inline uint8_t route__byte_at(slice_const_uint8_t x1, uint64_t x2)
{
    core__option__Option_8 x3;
    core__option__Option_9 x4;
    x4 = core__slice__slice_T__get(x1, x2);
    x3 = core__option__more__Option_ref_T__copied(x4);
    return core__option__Option__unwrap_or_2(x3, UINT8_C(0));
}

/* core::convert::UsizeFromU8::from */
IN_LINE uint64_t core__convert__UsizeFromU8__from(uint8_t x1)
{
    return (uint64_t)x1;
}

/* utilities::CompassDir::from_boundary */
static inline utilities__CompassDir utilities__CompassDir__from_boundary(uint8_t x1)
{
    utilities__CompassDir x2;
    switch (x1) {
    case 0:
        x2 = (utilities__CompassDir){ .tag = UINT8_C(0) };
        break;
    case 1:
        x2 = (utilities__CompassDir){ .tag = UINT8_C(1) };
        break;
    case 2:
        x2 = (utilities__CompassDir){ .tag = UINT8_C(2) };
        break;
    case 3:
        x2 = (utilities__CompassDir){ .tag = UINT8_C(3) };
        break;
    default:
        x2 = (utilities__CompassDir){ .tag = UINT8_C(8) };
        break;
    }
    return x2;
}

/* route::PortalWindow::new */
static inline route__PortalWindow route__PortalWindow__new(slice_const_uint8_t x1)
{
    uint64_t x2, x3;
    utilities__CompassDir x4;
    uint8_t x5;
    x5 = route__byte_at(x1, UINT64_C(3));
    x2 = core__convert__UsizeFromU8__from(x5);
    x5 = route__byte_at(x1, UINT64_C(4));
    x3 = core__convert__UsizeFromU8__from(x5);
    x5 = route__byte_at(x1, UINT64_C(5));
    x4 = utilities__CompassDir__from_boundary(x5);
    return (route__PortalWindow){ .f0 = x2, .f1 = x3, .f2 = x4 };
}

/* route::fn::RouteStep::new::then */
IN_LINE route__PortalWindow route__fn__RouteStep__new__then(route__fn__RouteStep__new__then_Self x1)
{
    return route__PortalWindow__new(x1.f0);
}

/* route::fn::RouteStep::new::then+FnOnce::call_once */
IN_LINE route__PortalWindow route__fn__RouteStep__new__then_FnOnce__call_once(route__fn__RouteStep__new__then_Self x1)
{
    return route__fn__RouteStep__new__then(x1);
}

/* core::bool::then at route::PortalWindow, route::fn::RouteStep::new::then+Self<&[u8]> */
IN_LINE core__option__Option_5 core__bool__then(bool x1, route__fn__RouteStep__new__then_Self x2)
{
    core__option__Option_5 x4;
    route__PortalWindow x5;
    if (x1) {
        x5 = route__fn__RouteStep__new__then_FnOnce__call_once(x2);
        x4 = (core__option__Option_5){ .tag = UINT8_C(1), .v1_f1 = x5 };
    } else {
        x4 = (core__option__Option_5){ .tag = UINT8_C(0) };
    }
    return x4;
}

/* route::RouteStep::new */
static inline route__RouteStep route__RouteStep__new(slice_const_uint8_t x1)
{
    uint64_t x2, x3;
    core__option__Option_5 x4;
    uint8_t x5;
    bool x6;
    x5 = route__byte_at(x1, UINT64_C(0));
    x2 = core__convert__UsizeFromU8__from(x5);
    x5 = route__byte_at(x1, UINT64_C(1));
    x3 = core__convert__UsizeFromU8__from(x5);
    x5 = route__byte_at(x1, UINT64_C(2));
    x6 = x5 == UINT8_C(1);
    x4 = core__bool__then(x6, (route__fn__RouteStep__new__then_Self){ .f0 = (slice_const_uint8_t){ .at = x1.at, .length = x1.length } });
    return (route__RouteStep){ .f0 = x2, .f1 = x3, .f2 = x4 };
}

/* fields::CellList::none at 10 */
static inline fields__CellList fields__CellList__none(void)
{
    fields__CellList x0;
    array_10_uint8_t x1;
    x1 = (array_10_uint8_t){ { 0 } };
    memcpy(x0.f0, x1.at, sizeof x0.f0);
    x0.f1 = UINT64_C(0);
    return x0;
}

/* route::edge_length */
static inline uint64_t route__edge_length(utilities__CompassDir x1)
{
    uint64_t x2;
    switch (x1.tag) {
    case 0:
    case 1:
    case 2:
    case 3:
        x2 = UINT64_C(10);
        break;
    default:
        x2 = UINT64_C(0);
        break;
    }
    return x2;
}

/* utilities::pair */
static inline utilities__Differences utilities__pair(uint64_t x1, uint64_t x2)
{
    return (utilities__Differences){ .f0 = x1, .f1 = x2 };
}

/* utilities::CompassDir::differences */
static inline utilities__Differences utilities__CompassDir__differences(utilities__CompassDir x1)
{
    utilities__Differences x2;
    x2 = utilities__pair(utilities__CompassDir__differences__2_0[x1.tag], utilities__CompassDir__differences__2_1[x1.tag]);
    return x2;
}

/* route::stride_of */
static inline uint64_t route__stride_of(utilities__CompassDir x1)
{
    utilities__Differences x2;
    x2 = utilities__CompassDir__differences(x1);
    return choose_uint64_t(x2.f0 == UINT64_C(0), UINT64_C(1), UINT64_C(10));
}

/* route::edge_cell */
static inline uint64_t route__edge_cell(utilities__CompassDir x1, uint64_t x2)
{
    uint64_t x3, x4, x5;
    switch (x1.tag) {
    case 1:
        x4 = UINT64_C(9);
        break;
    case 2:
        x4 = UINT64_C(90);
        break;
    default:
        x4 = UINT64_C(0);
        break;
    }
    x3 = x4;
    x5 = route__stride_of(x1);
    return x3 + (x2 * x5);
}

/* core::iter::ranges::RangeInclusive::new at u64 */
IN_LINE core__iter__ranges__RangeInclusive core__iter__ranges__RangeInclusive__new(uint64_t x1, uint64_t x2)
{
    uint64_t x3;
    x3 = x1;
    return (core__iter__ranges__RangeInclusive){ .f0 = x3, .f1 = x2, .f2 = false };
}

/* core::cmp::numbers::UsizeOrd::cmp */
IN_LINE core__cmp__Ordering core__cmp__numbers__UsizeOrd__cmp(const uint64_t *x1, const uint64_t *x2)
{
    uint64_t x3, x4, x5, x6;
    core__cmp__Ordering x8, x10;
    x5 = *x1;
    x6 = *x2;
    x3 = x5;
    x4 = x6;
    if (x3 == x4) {
        x8 = (core__cmp__Ordering){ .tag = UINT8_C(1) };
    } else {
        if (x3 < x4) {
            x10 = (core__cmp__Ordering){ .tag = UINT8_C(0) };
        } else {
            x10 = (core__cmp__Ordering){ .tag = UINT8_C(2) };
        }
        x8 = x10;
    }
    return x8;
}

/* core::cmp::numbers::UsizePartialOrd::partial_cmp */
IN_LINE core__option__Option_15 core__cmp__numbers__UsizePartialOrd__partial_cmp(const uint64_t *x1, const uint64_t *x2)
{
    core__cmp__Ordering x3;
    x3 = core__cmp__numbers__UsizeOrd__cmp(x1, x2);
    return (core__option__Option_15){ .tag = UINT8_C(1), .v1_f1 = x3 };
}

/* core::cmp::Ordering::is_le */
IN_LINE bool core__cmp__Ordering__is_le(core__cmp__Ordering x1)
{
    bool x2;
    switch (x1.tag) {
    case 0:
        x2 = true;
        break;
    case 1:
        x2 = true;
        break;
    default:
        x2 = false;
        break;
    }
    return x2;
}

/* core::cmp::PartialOrd::le at u64 */
IN_LINE bool core__cmp__PartialOrd__le(const uint64_t *x1, const uint64_t *x2)
{
    core__option__Option_15 x4;
    bool x5;
    x4 = core__cmp__numbers__UsizePartialOrd__partial_cmp(x1, x2);
    switch (x4.tag) {
    case 1:
        x5 = core__cmp__Ordering__is_le(x4.v1_f1);
        break;
    default:
        x5 = false;
        break;
    }
    return x5;
}

/* core::cmp::Ordering::is_lt */
IN_LINE bool core__cmp__Ordering__is_lt(core__cmp__Ordering x1)
{
    bool x2;
    switch (x1.tag) {
    case 0:
        x2 = true;
        break;
    case 1:
        x2 = false;
        break;
    default:
        x2 = false;
        break;
    }
    return x2;
}

/* core::cmp::PartialOrd::lt at u64 */
IN_LINE bool core__cmp__PartialOrd__lt(const uint64_t *x1, const uint64_t *x2)
{
    core__option__Option_15 x4;
    bool x5;
    x4 = core__cmp__numbers__UsizePartialOrd__partial_cmp(x1, x2);
    switch (x4.tag) {
    case 1:
        x5 = core__cmp__Ordering__is_lt(x4.v1_f1);
        break;
    default:
        x5 = false;
        break;
    }
    return x5;
}

/* core::iter::ranges::RangeInclusive::contains at u64 */
IN_LINE bool core__iter__ranges__RangeInclusive__contains(const core__iter__ranges__RangeInclusive *x1, const uint64_t *x2)
{
    bool x3, x6;
    x3 = core__cmp__PartialOrd__le(&x1->f0, x2);
    if (!x3) {
        return false;
    }
    x3 = x1->f2;
    if (x3) {
        x6 = core__cmp__PartialOrd__lt(x2, &x1->f1);
    } else {
        x6 = core__cmp__PartialOrd__le(x2, &x1->f1);
    }
    return x6;
}

/* route::is_between */
static inline bool route__is_between(uint64_t x1, uint64_t x2, uint64_t x3)
{
    uint64_t x4;
    core__iter__ranges__RangeInclusive x6;
    const core__iter__ranges__RangeInclusive *x7;
    x4 = x3;
    x6 = core__iter__ranges__RangeInclusive__new(x1, x2);
    x7 = &x6;
    return core__iter__ranges__RangeInclusive__contains(x7, &x4);
}

/* fields::CellList::push at 10 */
static inline void fields__CellList__push(fields__CellList *x1, uint8_t x2)
{
    uint64_t x3;
    x3 = x1->f1;
    *(x1->f0 + x3) = x2;
    x3 = x1->f1;
    x1->f1 = x3 + UINT64_C(1);
}

/* route::PortalWindow::get_all_window_cells */
static inline fields__CellList route__PortalWindow__get_all_window_cells(route__PortalWindow x1)
{
    fields__CellList x2;
    uint64_t x3, x4, x6;
    fields__CellList *x12;
    x2 = fields__CellList__none();
    x3 = UINT64_C(0);
    x6 = route__edge_length(x1.f2);
    while (x3 < x6) {
        x4 = route__edge_cell(x1.f2, x3);
        if (route__is_between(x1.f0, x1.f1, x4)) {
            x12 = &x2;
            fields__CellList__push(x12, (uint8_t)x4);
        }
        x3 = x3 + UINT64_C(1);
    }
    return x2;
}

/* route::RouteStep::as_target */
static inline route__Target route__RouteStep__as_target(route__RouteStep x1)
{
    route__Target x3;
    fields__CellList x4;
    switch (x1.f2.tag) {
    case 1:
        x4 = route__PortalWindow__get_all_window_cells(x1.f2.v1_f1);
        x3 = (route__Target){ .tag = UINT8_C(1), .v1_f1 = x4 };
        break;
    default:
        x3 = (route__Target){ .tag = UINT8_C(0), .v0_f1 = x1.f1 };
        break;
    }
    return x3;
}

/* step_numbers::on_edge */
static inline bool step_numbers__on_edge(utilities__CompassDir x1, uint64_t x2)
{
    bool x3;
    switch (x1.tag) {
    case 0:
        x3 = (x2 / UINT64_C(10)) == UINT64_C(0);
        break;
    case 1:
        x3 = (x2 % UINT64_C(10)) == UINT64_C(9);
        break;
    case 2:
        x3 = (x2 / UINT64_C(10)) == UINT64_C(9);
        break;
    case 3:
        x3 = (x2 % UINT64_C(10)) == UINT64_C(0);
        break;
    default:
        x3 = false;
        break;
    }
    return x3;
}

/* step_numbers::window_number */
static inline core__result__Result step_numbers__window_number(uint8_t x1, uint8_t x2, uint8_t x3)
{
    utilities__CompassDir x4;
    bool x10, x12;
    uint64_t x11, x13;
    if (!(UINT8_C(99) < x1)) {
        if (!(UINT8_C(99) < x2)) {
            if (!(UINT8_C(3) < x3)) {
                goto out2;
            }
        }
    }
    return (core__result__Result){ .tag = UINT8_C(1), .v1_f1 = (refusals__Refusal){ .tag = UINT8_C(5) } };
    goto out1;
    out2:;
    out1:;
    x4 = utilities__CompassDir__from_boundary(x3);
    x11 = core__convert__UsizeFromU8__from(x1);
    x10 = step_numbers__on_edge(x4, x11);
    if (!!x10) {
        x13 = core__convert__UsizeFromU8__from(x2);
        x12 = step_numbers__on_edge(x4, x13);
        if (!!x12) {
            goto out6;
        }
    }
    return (core__result__Result){ .tag = UINT8_C(1), .v1_f1 = (refusals__Refusal){ .tag = UINT8_C(6) } };
    goto out5;
    out6:;
    out5:;
    x10 = x2 < x1;
    if (x10) {
        return (core__result__Result){ .tag = UINT8_C(1), .v1_f1 = (refusals__Refusal){ .tag = UINT8_C(7) } };
    }
    return (core__result__Result){ .tag = UINT8_C(0) };
}

/* step_numbers::step_number */
static inline core__result__Result step_numbers__step_number(slice_const_uint8_t x1)
{
    uint8_t x2, x3, x4, x5, x6, x7, x8, x9;
    const uint8_t *x11, *x12, *x13, *x14, *x15, *x16, *x17, *x18;
    if (x1.length < UINT64_C(8)) {
        goto out2;
    }
    if (x1.length < UINT64_C(9)) {
        x11 = x1.at + UINT64_C(0);
        x12 = x1.at + UINT64_C(1);
        x13 = x1.at + UINT64_C(2);
        x14 = x1.at + UINT64_C(3);
        x15 = x1.at + UINT64_C(4);
        x16 = x1.at + UINT64_C(5);
        x17 = x1.at + UINT64_C(6);
        x18 = x1.at + UINT64_C(7);
        x2 = *x11;
        x3 = *x12;
        x4 = *x13;
        x5 = *x14;
        x6 = *x15;
        x7 = *x16;
        x8 = *x17;
        x9 = *x18;
        goto out1;
    }
    goto out2;
    out2:;
    return (core__result__Result){ .tag = UINT8_C(1), .v1_f1 = (refusals__Refusal){ .tag = UINT8_C(2) } };
    out1:;
    if (!(UINT8_C(63) < x2)) {
        if (!(UINT8_C(1) < x4)) {
            if (!(x8 != UINT8_C(0))) {
                if (!(x9 != UINT8_C(0))) {
                    goto out4;
                }
            }
        }
    }
    return (core__result__Result){ .tag = UINT8_C(1), .v1_f1 = (refusals__Refusal){ .tag = UINT8_C(3) } };
    goto out3;
    out4:;
    out3:;
    if (x4 == UINT8_C(1)) {
        return step_numbers__window_number(x5, x6, x7);
    }
    if (UINT8_C(99) < x3) {
        return (core__result__Result){ .tag = UINT8_C(1), .v1_f1 = (refusals__Refusal){ .tag = UINT8_C(4) } };
    }
    return (core__result__Result){ .tag = UINT8_C(0) };
}

/* core::result::ResultTry::branch at (), refusals::Refusal */
IN_LINE core__ops__ControlFlow core__result__ResultTry__branch(core__result__Result x1)
{
    core__ops__ControlFlow x4;
    switch (x1.tag) {
    case 0:
        x4 = (core__ops__ControlFlow){ .tag = UINT8_C(0) };
        break;
    default:
        x4 = (core__ops__ControlFlow){ .tag = UINT8_C(1), .v1_f1 = (core__result__ErrResidual){ .f0 = x1.v1_f1 } };
        break;
    }
    return x4;
}

/* core::convert::AnyFrom::from at refusals::Refusal */
IN_LINE refusals__Refusal core__convert__AnyFrom__from(refusals__Refusal x1)
{
    return x1;
}

/* core::result::ResultFromResidualErrResidual::from_residual at (), refusals::Refusal, refusals::Refusal */
IN_LINE core__result__Result core__result__ResultFromResidualErrResidual__from_residual(core__result__ErrResidual x1)
{
    refusals__Refusal x2;
    x2 = core__convert__AnyFrom__from(x1.f0);
    return (core__result__Result){ .tag = UINT8_C(1), .v1_f1 = x2 };
}

/* core::iter::slices::slice+T::iter at u8 */
IN_LINE core__iter__slices__Iter_2 core__iter__slices__slice_T__iter_2(slice_const_uint8_t x1)
{
    return (core__iter__slices__Iter_2){ .f0 = x1 };
}

/* core::slice::slice+T::is_empty at u8 */
IN_LINE bool core__slice__slice_T__is_empty_2(slice_const_uint8_t x1)
{
    return x1.length == UINT64_C(0);
}

/* core::iter::slices::IterIterator::next at u8 */
IN_LINE core__option__Option_9 core__iter__slices__IterIterator__next_2(core__iter__slices__Iter_2 *x1)
{
    slice_const_uint8_t x2;
    const uint8_t *x5, *x9;
    uint64_t x6;
    x2 = x1->f0;
    if (core__slice__slice_T__is_empty_2(x2)) {
        return (core__option__Option_9){ .tag = UINT8_C(0) };
    }
    x5 = part(x2.at, UINT64_C(1) * UINT64_C(1));
    x6 = x2.length - UINT64_C(1);
    x1->f0 = (slice_const_uint8_t){ .at = x5, .length = x6 };
    x9 = part(x2.at, UINT64_C(0) * UINT64_C(1));
    return (core__option__Option_9){ .tag = UINT8_C(1), .v1_f1 = x9 };
}

/* step_numbers::fn::has_wall_cell::any */
IN_LINE bool step_numbers__fn__has_wall_cell__any(step_numbers__fn__has_wall_cell__any_Self *x1, const uint8_t *x2)
{
    slice_const_uint8_t x3;
    uint8_t x4;
    uint64_t x5;
    x3 = x1->f0;
    x5 = core__convert__UsizeFromU8__from(*x2);
    x4 = route__byte_at(x3, x5);
    return x4 == UINT8_C(255);
}

/* step_numbers::fn::has_wall_cell::any+FnMut::call_mut */
IN_LINE bool step_numbers__fn__has_wall_cell__any_FnMut__call_mut(
    step_numbers__fn__has_wall_cell__any_Self *x1, const uint8_t *x2)
{
    return step_numbers__fn__has_wall_cell__any(x1, x2);
}

/* core::iter::base::Iterator::any at core::iter::slices::Iter<u8>, &u8, step_numbers::fn::has_wall_cell::any+Self<&[u8]> */
IN_LINE bool core__iter__base__Iterator__any(core__iter__slices__Iter_2 *x1, step_numbers__fn__has_wall_cell__any_Self x2)
{
    step_numbers__fn__has_wall_cell__any_Self x3;
    const uint8_t *x4;
    core__option__Option_9 x5;
    step_numbers__fn__has_wall_cell__any_Self *x8;
    x3 = x2;
    for (;;) {
        x5 = core__iter__slices__IterIterator__next_2(x1);
        switch (x5.tag) {
        case 1:
            x4 = x5.v1_f1;
            x8 = &x3;
            if (step_numbers__fn__has_wall_cell__any_FnMut__call_mut(x8, x4)) {
                return true;
            }
            break;
        default:
            goto out1;
        }
    }
    out1:;
    return false;
}

/* step_numbers::has_wall_cell */
static inline bool step_numbers__has_wall_cell(slice_const_uint8_t x1, fields__CellList x2)
{
    bool x0;
    fields__CellList x3;
    uint64_t x5;
    core__iter__slices__Iter_2 x8;
    core__iter__slices__Iter_2 *x9;
    x3 = x2;
    x5 = x3.f1;
    x8 = core__iter__slices__slice_T__iter_2((slice_const_uint8_t){ .at = x3.f0, .length = x5 });
    x9 = &x8;
    x0 = core__iter__base__Iterator__any(x9, (step_numbers__fn__has_wall_cell__any_Self){ .f0 = (slice_const_uint8_t){ .at = x1.at, .length = x1.length } });
    return x0;
}

/* step_numbers::is_wall_target */
static inline bool step_numbers__is_wall_target(slice_const_uint8_t x1, route__Target x2)
{
    uint64_t x3;
    bool x5;
    uint8_t x6;
    switch (x2.tag) {
    case 0:
        x3 = x2.v0_f1;
        goto out2;
    case 2:
        x3 = x2.v2_f1;
        goto out2;
    default:
        x5 = step_numbers__has_wall_cell(x1, x2.v1_f1);
        goto out1;
    }
    out2:;
    x6 = route__byte_at(x1, x3);
    x5 = x6 == UINT8_C(255);
    out1:;
    return x5;
}

/* step_numbers::number_with_target */
static inline core__result__Result step_numbers__number_with_target(
    slice_const_uint8_t x1, slice_const_uint8_t x2, route__Target x3)
{
    core__ops__ControlFlow x6;
    core__result__Result x7;
    x7 = step_numbers__step_number(x2);
    x6 = core__result__ResultTry__branch(x7);
    switch (x6.tag) {
    case 0:
        break;
    default:
        return core__result__ResultFromResidualErrResidual__from_residual(x6.v1_f1);
    }
    if (step_numbers__is_wall_target(x1, x3)) {
        return (core__result__Result){ .tag = UINT8_C(1), .v1_f1 = (refusals__Refusal){ .tag = UINT8_C(15) } };
    }
    return (core__result__Result){ .tag = UINT8_C(0) };
}

/* core::result::ResultFromResidualErrResidual::from_residual at core::option::Option<&[u32; 100]>, refusals::Refusal,
 * refusals::Refusal */
IN_LINE core__result__Result_4 core__result__ResultFromResidualErrResidual__from_residual_3(core__result__ErrResidual x1)
{
    refusals__Refusal x2;
    x2 = core__convert__AnyFrom__from(x1.f0);
    return (core__result__Result_4){ .tag = UINT8_C(1), .v1_f1 = x2 };
}

/* core::option::Option::is_none at &[u32] */
IN_LINE bool core__option__Option__is_none(const core__option__Option *x1)
{
    bool x2;
    switch (x1->tag) {
    case 1:
        x2 = false;
        break;
    default:
        x2 = true;
        break;
    }
    return x2;
}

/* sector::lacks_previous */
static inline bool sector__lacks_previous(route__Target x1, core__option__Option x2)
{
    core__option__Option x3;
    bool x4, x5;
    x3 = x2;
    switch (x1.tag) {
    case 1:
        x5 = true;
        break;
    default:
        x5 = false;
        break;
    }
    x4 = x5;
    if (x4) {
        x4 = core__option__Option__is_none(&x3);
    }
    return x4;
}

/* core::simd::chunks::arrays at u32, 100 */
IN_LINE slice_const_uint32_t core__simd__chunks__arrays_2(slice_const_uint32_t x1, uint64_t x2)
{
    slice_const_uint32_t x3;
    x3 = (slice_const_uint32_t){ .at = (const uint32_t *)(const uint8_t *)x1.at, .length = x2 };
    return x3;
}

/* core::slice::arrays::first_unchecked at [u32; 100] */
IN_LINE const uint32_t *core__slice__arrays__first_unchecked_2(slice_const_uint32_t x1)
{
    return (const uint32_t *)((const uint8_t *)x1.at + (UINT64_C(0) * (uint64_t)sizeof(array_100_uint32_t)));
}

/* core::slice::arrays::as_array_ref at u32, 100 */
IN_LINE const uint32_t *core__slice__arrays__as_array_ref_2(slice_const_uint32_t x1)
{
    slice_const_uint32_t x2;
    x2 = core__simd__chunks__arrays_2(x1, UINT64_C(1));
    return core__slice__arrays__first_unchecked_2(x2);
}

/* core::array::clones::ok at &[u32; 100], core::convert::lends::TryFromSliceError */
IN_LINE core__result__Result_8 core__array__clones__ok_2(const uint32_t *x1)
{
    return (core__result__Result_8){ .tag = UINT8_C(0), .v0_f1 = x1 };
}

/* core::convert::lends::RefArrayTryFromRefSlice::try_from at u32, 100 */
IN_LINE core__result__Result_8 core__convert__lends__RefArrayTryFromRefSlice__try_from_2(slice_const_uint32_t x1)
{
    const uint32_t *x5;
    if (x1.length != UINT64_C(100)) {
        return (core__result__Result_8){ .tag = UINT8_C(1) };
    }
    x5 = core__slice__arrays__as_array_ref_2(x1);
    return core__array__clones__ok_2(x5);
}

/* flow_new::of_100 */
static inline core__result__Result_4 flow_new__of_100(core__option__Option x1)
{
    core__result__Result_4 x0;
    slice_const_uint32_t x2;
    const uint32_t *x3;
    core__result__Result_8 x5;
    switch (x1.tag) {
    case 1:
        x2 = x1.v1_f1;
        break;
    default:
        return (core__result__Result_4){ .tag = UINT8_C(0), .v0_f1 = (core__option__Option_4){ .tag = UINT8_C(0) } };
    }
    x5 = core__convert__lends__RefArrayTryFromRefSlice__try_from_2(x2);
    switch (x5.tag) {
    case 0:
        x3 = x5.v0_f1;
        break;
    default:
        return (core__result__Result_4){ .tag = UINT8_C(1), .v1_f1 = (refusals__Refusal){ .tag = UINT8_C(11) } };
    }
    x0 = (core__result__Result_4){ .tag = UINT8_C(0), .v0_f1 = (core__option__Option_4){ .tag = UINT8_C(1), .v1_f1 = x3 } };
    return x0;
}

/* sector::accepted_previous */
static inline core__result__Result_4 sector__accepted_previous(
    const uint8_t *x1, slice_const_uint8_t x2, route__Target x3, core__option__Option x4)
{
    core__ops__ControlFlow x7;
    core__result__Result x8;
    x8 = step_numbers__number_with_target((slice_const_uint8_t){ .at = x1, .length = UINT64_C(100) }, x2, x3);
    x7 = core__result__ResultTry__branch(x8);
    switch (x7.tag) {
    case 0:
        break;
    default:
        return core__result__ResultFromResidualErrResidual__from_residual_3(x7.v1_f1);
    }
    if (sector__lacks_previous(x3, x4)) {
        return (core__result__Result_4){ .tag = UINT8_C(1), .v1_f1 = (refusals__Refusal){ .tag = UINT8_C(16) } };
    }
    return flow_new__of_100(x4);
}

/* route::Target::by_sight */
static inline route__Target route__Target__by_sight(route__Target x1, bool x2)
{
    uint64_t x3;
    route__Target x5;
    switch (x1.tag) {
    case 0:
        x3 = x1.v0_f1;
        if (!x2) {
            x5 = (route__Target){ .tag = UINT8_C(2), .v2_f1 = x3 };
            goto out1;
        }
        goto out2;
    default:
        goto out2;
    }
    out2:;
    x5 = x1;
    out1:;
    return x5;
}

/* integration_init::unmarked */
NOT_IN_LINE HanjolumIntegrationField integration_init__unmarked(void)
{
    HanjolumIntegrationField x0;
    array_100_uint32_t x1;
    array_100_uint64_t x2;
    array_100_uint8_t x3;
    for (uint32_t k1 = 0; k1 < 100; k1++) {
        x1.at[k1] = UINT32_C(65535);
    }
    x2 = (array_100_uint64_t){ { 0 } };
    for (uint32_t k2 = 0; k2 < 100; k2++) {
        x3.at[k2] = UINT8_C(255);
    }
    memcpy(x0.field, x1.at, sizeof x0.field);
    memcpy(x0.los_corners, x2.at, sizeof x0.los_corners);
    x0.count = UINT64_C(0);
    memcpy(x0.positions, x3.at, sizeof x0.positions);
    return x0;
}

/* integration_init::wall_or */
static inline uint32_t integration_init__wall_or(uint8_t x1)
{
    if (x1 == UINT8_C(255)) {
        return UINT32_C(65535) + UINT32_C(33554432);
    }
    return UINT32_C(65535);
}

/* integration_init::mark_walls */
static inline void integration_init__mark_walls(const uint8_t *x1, uint32_t *x2)
{
    uint64_t x3, x9;
    uint32_t x5;
    x3 = UINT64_C(0);
    while (x3 < UINT64_C(100)) {
        x5 = integration_init__wall_or(*(x1 + x3));
        x9 = x3 * UINT64_C(4);
        *(uint32_t *)((uint8_t *)x2 + x9) = x5;
        x3 = x3 + UINT64_C(1);
    }
}

/* integration_init::start_at */
NOT_IN_LINE HanjolumIntegrationField integration_init__start_at(const uint8_t *x1, fields__CellList x2)
{
    fields__CellList x3;
    HanjolumIntegrationField x4;
    uint64_t x5, x6, x10, x15;
    x3 = x2;
    x4 = integration_init__unmarked();
    integration_init__mark_walls(x1, x4.field);
    x5 = UINT64_C(0);
    x10 = x3.f1;
    while (x5 < x10) {
        x6 = core__convert__UsizeFromU8__from(*(x3.f0 + x5));
        x15 = x6 * UINT64_C(4);
        *(uint32_t *)((uint8_t *)x4.field + x15) = UINT32_C(524288);
        x15 = x5 * UINT64_C(8);
        *(uint64_t *)((uint8_t *)x4.los_corners + x15) = x6;
        x5 = x5 + UINT64_C(1);
    }
    x4.count = x3.f1;
    return x4;
}

/* core::iter::slices::slice+T::iter at u32 */
IN_LINE core__iter__slices__Iter_4 core__iter__slices__slice_T__iter_4(slice_const_uint32_t x1)
{
    return (core__iter__slices__Iter_4){ .f0 = x1 };
}

/* core::slice::slice+T::is_empty at u32 */
IN_LINE bool core__slice__slice_T__is_empty_4(slice_const_uint32_t x1)
{
    return x1.length == UINT64_C(0);
}

/* core::iter::slices::IterIterator::next at u32 */
IN_LINE core__option__Option_16 core__iter__slices__IterIterator__next_4(core__iter__slices__Iter_4 *x1)
{
    slice_const_uint32_t x2;
    const uint8_t *x5, *x9;
    uint64_t x6;
    x2 = x1->f0;
    if (core__slice__slice_T__is_empty_4(x2)) {
        return (core__option__Option_16){ .tag = UINT8_C(0) };
    }
    x5 = part((const uint8_t *)x2.at, UINT64_C(1) * UINT64_C(4));
    x6 = x2.length - UINT64_C(1);
    x1->f0 = (slice_const_uint32_t){ .at = (const uint32_t *)x5, .length = x6 };
    x9 = part((const uint8_t *)x2.at, UINT64_C(0) * UINT64_C(4));
    return (core__option__Option_16){ .tag = UINT8_C(1), .v1_f1 = (const uint32_t *)x9 };
}

/* integration_bits::is_impassable */
static inline bool integration_bits__is_impassable(uint32_t x1)
{
    return (x1 & UINT32_C(33554432)) == UINT32_C(33554432);
}

/* integration_init::fn::has_wall::any */
IN_LINE bool integration_init__fn__has_wall__any(const uint32_t *x1)
{
    return integration_bits__is_impassable(*x1);
}

/* integration_init::fn::has_wall::any+FnMut::call_mut */
IN_LINE bool integration_init__fn__has_wall__any_FnMut__call_mut(const uint32_t *x1)
{
    return integration_init__fn__has_wall__any(x1);
}

/* core::iter::base::Iterator::any at core::iter::slices::Iter<u32>, &u32, integration_init::fn::has_wall::any+Self */
IN_LINE bool core__iter__base__Iterator__any_3(core__iter__slices__Iter_4 *x1)
{
    core__option__Option_16 x5;
    for (;;) {
        x5 = core__iter__slices__IterIterator__next_4(x1);
        switch (x5.tag) {
        case 1:
            if (integration_init__fn__has_wall__any_FnMut__call_mut(x5.v1_f1)) {
                return true;
            }
            break;
        default:
            goto out1;
        }
    }
    out1:;
    return false;
}

/* integration_init::has_wall */
static inline bool integration_init__has_wall(const HanjolumIntegrationField *x1)
{
    core__iter__slices__Iter_4 x5;
    x5 = core__iter__slices__slice_T__iter_4((slice_const_uint32_t){ .at = x1->field, .length = UINT64_C(100) });
    return core__iter__base__Iterator__any_3(&x5);
}

/* line_end_table::fn::read_ends::from_fn */
IN_LINE uint8_t line_end_table__fn__read_ends__from_fn(line_end_table__fn__read_ends__from_fn_Self *x1, uint64_t x2)
{
    const uint8_t *x3;
    uint64_t x5, x6;
    x3 = x1->f0;
    x5 = *x1->f1;
    x6 = x2 * UINT64_C(100);
    return *((x3 + x6) + x5);
}

/* line_end_table::fn::read_ends::from_fn+FnMut::call_mut */
IN_LINE uint8_t line_end_table__fn__read_ends__from_fn_FnMut__call_mut(
    line_end_table__fn__read_ends__from_fn_Self *x1, uint64_t x2)
{
    return line_end_table__fn__read_ends__from_fn(x1, x2);
}

/* core::array::CallsElements::at at u8, line_end_table::fn::read_ends::from_fn+Self<&[[u8; 100]; 100], &u64> */
IN_LINE uint8_t core__array__CallsElements__at_3(core__array__Calls_3 *x1, uint64_t x2)
{
    return line_end_table__fn__read_ends__from_fn_FnMut__call_mut(&x1->f0, x2);
}

/* core::array::array_from at u8, 100, core::array::Calls<line_end_table::fn::read_ends::from_fn+Self<&[[u8; 100]; 100], &u64>> */
IN_LINE array_100_uint8_t core__array__array_from_5(core__array__Calls_3 *x1)
{
    array_100_uint8_t x2;
    uint64_t x3, x7;
    uint8_t x6;
    x3 = UINT64_C(0);
    while (x3 < UINT64_C(100)) {
        x6 = core__array__CallsElements__at_3(x1, x3);
        x7 = x3 * UINT64_C(1);
        *(x2.at + x7) = x6;
        x3 = x3 + UINT64_C(1);
    }
    return x2;
}

/* core::array::from_fn at u8, 100, line_end_table::fn::read_ends::from_fn+Self<&[[u8; 100]; 100], &u64> */
IN_LINE array_100_uint8_t core__array__from_fn_3(line_end_table__fn__read_ends__from_fn_Self x1)
{
    core__array__Calls_3 x4;
    x4 = (core__array__Calls_3){ .f0 = x1, .f1 = UINT64_C(100) };
    return core__array__array_from_5(&x4);
}

/* line_end_table::read_ends */
static inline array_100_uint8_t line_end_table__read_ends(uint64_t x1)
{
    uint64_t x2;
    const uint8_t *x7;
    x2 = x1;
    x7 = line_end_table__ends__lay_out__102;
    return core__array__from_fn_3((line_end_table__fn__read_ends__from_fn_Self){ .f0 = x7, .f1 = &x2 });
}

/* integration_init::ends_to_lend */
static inline array_100_uint8_t integration_init__ends_to_lend(const HanjolumIntegrationField *x1, uint64_t x2)
{
    array_100_uint8_t x0;
    if (integration_init__has_wall(x1)) {
        x0 = line_end_table__read_ends(x2);
        return x0;
    }
    x0 = (array_100_uint8_t){ { 0 } };
    return x0;
}

/* fields::CellList::none at 100 */
static inline fields__CellList_2 fields__CellList__none_2(void)
{
    fields__CellList_2 x0;
    array_100_uint8_t x1;
    x1 = (array_100_uint8_t){ { 0 } };
    memcpy(x0.f0, x1.at, sizeof x0.f0);
    x0.f1 = UINT64_C(0);
    return x0;
}

/* fields::CellList::push at 100 */
static inline void fields__CellList__push_2(fields__CellList_2 *x1, uint8_t x2)
{
    uint64_t x3;
    x3 = x1->f1;
    *(x1->f0 + x3) = x2;
    x3 = x1->f1;
    x1->f1 = x3 + UINT64_C(1);
}

/* fields::FieldCell::from_index */
static inline HanjolumFieldCell fields__FieldCell__from_index(uint64_t x1)
{
    uint64_t x2;
    x2 = x1 % UINT64_C(10);
    return (HanjolumFieldCell){ .column = x2, .row = x1 / UINT64_C(10) };
}

/* utilities::CompassDirPartialEq::eq */
static inline bool utilities__CompassDirPartialEq__eq(const utilities__CompassDir *x1, const utilities__CompassDir *x2)
{
    uint8_t x3;
    bool x5;
    x3 = x1->tag;
    if (x3 != x2->tag) {
        return false;
    }
    x5 = true;
    return x5;
}

/* core::cmp::PartialEq::ne at utilities::CompassDir */
IN_LINE bool core__cmp__PartialEq__ne(const utilities__CompassDir *x1, const utilities__CompassDir *x2)
{
    bool x3;
    x3 = utilities__CompassDirPartialEq__eq(x1, x2);
    return !x3;
}

/* utilities::CompassDir::points */
static inline bool utilities__CompassDir__points(utilities__CompassDir x1)
{
    utilities__CompassDir x2;
    const utilities__CompassDir *x3;
    x2 = x1;
    x3 = &x2;
    return core__cmp__PartialEq__ne(x3, &utilities__CompassDir__points__lent_3);
}

/* fields::FieldCell::get_in_compass_direction */
static inline core__option__Option_11 fields__FieldCell__get_in_compass_direction(HanjolumFieldCell x1, utilities__CompassDir x2)
{
    utilities__Differences x3;
    uint64_t x4, x5, x13;
    bool x6;
    x6 = utilities__CompassDir__points(x2);
    if (!x6) {
        return (core__option__Option_11){ .tag = UINT8_C(0) };
    }
    x3 = utilities__CompassDir__differences(x2);
    x4 = signed_sum(x1.column, x3.f0);
    x5 = signed_sum(x1.row, x3.f1);
    if (signed_at_most(UINT64_C(0), x4)) {
        if (signed_at_most(x4, UINT64_C(9))) {
            if (signed_at_most(UINT64_C(0), x5)) {
                if (signed_at_most(x5, UINT64_C(9))) {
                    x13 = x4;
                    return (core__option__Option_11){ .tag = UINT8_C(1), .v1_f1 = (HanjolumFieldCell){ .column = x13, .row = x5 } };
                }
            }
        }
    }
    return (core__option__Option_11){ .tag = UINT8_C(0) };
}

/* fields::index_beside */
static inline uint64_t fields__index_beside(uint64_t x1, utilities__CompassDir x2)
{
    utilities__Differences x3;
    uint64_t x4;
    x3 = utilities__CompassDir__differences(x2);
    x4 = x1;
    return signed_sum(signed_sum(x4, signed_product(x3.f1, UINT64_C(10))), x3.f0);
}

/* integration_init::is_left_alone */
static inline bool integration_init__is_left_alone(uint32_t x1)
{
    return (x1 & ((UINT32_C(262144) | UINT32_C(131072)) | UINT32_C(65536))) != UINT32_C(0);
}

/* utilities::CompassDir::lower_side */
static inline utilities__CompassDir utilities__CompassDir__lower_side(utilities__CompassDir x1)
{
    utilities__Differences x2;
    x2 = utilities__CompassDir__differences(x1);
    if (x2.f0 == UINT64_C(0)) {
        return (utilities__CompassDir){ .tag = UINT8_C(3) };
    }
    return (utilities__CompassDir){ .tag = UINT8_C(0) };
}

/* fields::FieldCell::as_1d_index */
static inline uint64_t fields__FieldCell__as_1d_index(HanjolumFieldCell x1)
{
    uint64_t x2, x3;
    x2 = x1.column;
    x3 = x1.row;
    if (UINT64_C(9) < x2) {
        return UINT64_C(100);
    }
    if (UINT64_C(9) < x3) {
        return UINT64_C(100);
    }
    return (x3 * UINT64_C(10)) + x2;
}

/* integration_init::is_wall_at */
static inline bool integration_init__is_wall_at(const HanjolumIntegrationField *x1, uint64_t x2)
{
    uint64_t x3;
    x3 = x2 * UINT64_C(4);
    return integration_bits__is_impassable(*(const uint32_t *)((const uint8_t *)x1->field + x3));
}

/* integration_init::open_side */
static inline core__option__Option_11 integration_init__open_side(
    const HanjolumIntegrationField *x1, uint64_t x2, utilities__CompassDir x3)
{
    HanjolumFieldCell x4, x6;
    core__option__Option_11 x5;
    uint64_t x8;
    x6 = fields__FieldCell__from_index(x2);
    x5 = fields__FieldCell__get_in_compass_direction(x6, x3);
    switch (x5.tag) {
    case 1:
        x4 = x5.v1_f1;
        break;
    default:
        return (core__option__Option_11){ .tag = UINT8_C(0) };
    }
    x8 = fields__FieldCell__as_1d_index(x4);
    if (integration_init__is_wall_at(x1, x8)) {
        return (core__option__Option_11){ .tag = UINT8_C(0) };
    }
    return (core__option__Option_11){ .tag = UINT8_C(1), .v1_f1 = x4 };
}

/* core::int::usize::abs_diff */
IN_LINE uint64_t core__int__usize__abs_diff(uint64_t x1, uint64_t x2)
{
    uint64_t x4;
    if (x1 < x2) {
        x4 = x2 - x1;
    } else {
        x4 = x1 - x2;
    }
    return x4;
}

/* bresenham::major */
static inline uint64_t bresenham__major(bool x1, HanjolumFieldCell x2)
{
    uint64_t x4;
    if (x1) {
        x4 = x2.row;
    } else {
        x4 = x2.column;
    }
    return x4;
}

/* bresenham::minor */
static inline uint64_t bresenham__minor(bool x1, HanjolumFieldCell x2)
{
    uint64_t x4;
    if (x1) {
        x4 = x2.column;
    } else {
        x4 = x2.row;
    }
    return x4;
}

/* bresenham::list_place */
static inline uint64_t bresenham__list_place(bool x1, uint64_t x2, uint64_t x3)
{
    uint64_t x5;
    if (x1) {
        x5 = x2 - x3;
    } else {
        x5 = x3;
    }
    return x5;
}

/* bresenham::moved */
static inline uint64_t bresenham__moved(uint64_t x1, uint64_t x2, uint64_t x3)
{
    uint64_t x5;
    if (x1 <= x2) {
        x5 = x1 + x3;
    } else {
        x5 = x1 - x3;
    }
    return x5;
}

/* bresenham::index_on_axes */
static inline uint8_t bresenham__index_on_axes(bool x1, uint64_t x2, uint64_t x3)
{
    uint64_t x6;
    if (x1) {
        x6 = (x2 * UINT64_C(10)) + x3;
    } else {
        x6 = (x3 * UINT64_C(10)) + x2;
    }
    return (uint8_t)x6;
}

/* bresenham::walk */
static inline fields__CellList bresenham__walk(bool x1, bool x2, HanjolumFieldCell x3, HanjolumFieldCell x4)
{
    uint64_t x5, x6, x7, x8, x9, x10, x12, x13, x14, x15, x16, x20, x21, x25;
    fields__CellList x11;
    uint8_t x19;
    x5 = bresenham__major(x1, x3);
    x16 = bresenham__major(x1, x4);
    x6 = x16 - x5;
    x7 = x6 + UINT64_C(1);
    x8 = bresenham__minor(x1, x3);
    x9 = bresenham__minor(x1, x4);
    x10 = core__int__usize__abs_diff(x8, x9);
    x11 = fields__CellList__none();
    x16 = UINT64_C(2) * x10;
    x12 = x16 + x6;
    x13 = UINT64_C(0);
    x14 = UINT64_C(0);
    while (x14 < x7) {
        x15 = bresenham__list_place(x2, x6, x14);
        x20 = x5 + x14;
        x21 = bresenham__moved(x8, x9, x13);
        x19 = bresenham__index_on_axes(x1, x20, x21);
        *(x11.f0 + x15) = x19;
        x20 = UINT64_C(2) * x6;
        if (x20 < x12) {
            x13 = x13 + UINT64_C(1);
            x25 = x12 + (UINT64_C(2) * x10);
            x12 = x25 - (UINT64_C(2) * x6);
        } else {
            x12 = x12 + (UINT64_C(2) * x10);
        }
        x14 = x14 + UINT64_C(1);
    }
    x11.f1 = x7;
    return x11;
}

/* bresenham::draw_cells_between_points */
static inline fields__CellList bresenham__draw_cells_between_points(HanjolumFieldCell x1, HanjolumFieldCell x2)
{
    uint64_t x3, x4;
    x3 = core__int__usize__abs_diff(x1.column, x2.column);
    x4 = core__int__usize__abs_diff(x1.row, x2.row);
    if (x4 < x3) {
        if (x1.column <= x2.column) {
            return bresenham__walk(false, false, x1, x2);
        }
        return bresenham__walk(false, true, x2, x1);
    }
    if (x1.row <= x2.row) {
        return bresenham__walk(true, false, x1, x2);
    }
    return bresenham__walk(true, true, x2, x1);
}

/* integration_bits::passes_wall */
static inline bool integration_bits__passes_wall(HanjolumFieldCell x1, HanjolumFieldCell x2, uint32_t x3, uint32_t x4)
{
    bool x5, x6, x7;
    x6 = x1.row != x2.row;
    if (x6) {
        x6 = x1.column != x2.column;
    }
    x5 = x6;
    if (x5) {
        x7 = integration_bits__is_impassable(x3);
        if (!x7) {
            x7 = integration_bits__is_impassable(x4);
        }
        x5 = x7;
    }
    return x5;
}

/* integration_init::is_stopped */
static inline bool integration_init__is_stopped(const HanjolumIntegrationField *x1, uint64_t x2, uint64_t x3)
{
    HanjolumFieldCell x4, x5;
    uint32_t x6;
    uint64_t x11;
    if (integration_init__is_wall_at(x1, x3)) {
        return true;
    }
    x4 = fields__FieldCell__from_index(x2);
    x5 = fields__FieldCell__from_index(x3);
    x11 = ((x4.row * UINT64_C(10)) + x5.column) * UINT64_C(4);
    x6 = *(const uint32_t *)((const uint8_t *)x1->field + x11);
    x11 = ((x5.row * UINT64_C(10)) + x4.column) * UINT64_C(4);
    return integration_bits__passes_wall(x4, x5, x6, *(const uint32_t *)((const uint8_t *)x1->field + x11));
}

/* integration_bits::is_blocked */
static inline bool integration_bits__is_blocked(uint32_t x1)
{
    return (x1 & UINT32_C(262144)) == UINT32_C(262144);
}

/* integration_init::mark */
static inline void integration_init__mark(HanjolumIntegrationField *x1, uint64_t x2, uint32_t x3)
{
    uint64_t x5, x9;
    uint32_t x12;
    x5 = x2 * UINT64_C(4);
    if (integration_bits__is_blocked(*(const uint32_t *)((const uint8_t *)x1->field + x5))) {
        return;
    }
    x5 = x1->count;
    x9 = x5 * UINT64_C(8);
    *(uint64_t *)((uint8_t *)x1->los_corners + x9) = x2;
    x5 = x1->count;
    x9 = x5 + UINT64_C(1);
    x1->count = x9;
    x12 = (x3 + UINT32_C(262144)) + UINT32_C(67108864);
    x9 = x2 * UINT64_C(4);
    *(uint32_t *)((uint8_t *)x1->field + x9) = x12;
}

/* integration_init::Wave::mark_line */
static inline void integration_init__Wave__mark_line(
    const integration_init__Wave *x1, HanjolumIntegrationField *x2, uint64_t x3, slice_const_uint8_t x4)
{
    uint64_t x5, x7, x9, x11;
    uint32_t x6;
    uint8_t x8;
    const uint8_t *x14;
    x5 = x3;
    x6 = x1->f1 + UINT32_C(1);
    x7 = UINT64_C(0);
    x11 = x4.length;
    while (x7 < x11) {
        x14 = part(x4.at, x7);
        x8 = *x14;
        x9 = core__convert__UsizeFromU8__from(x8);
        if (integration_init__is_stopped(x2, x5, x9)) {
            return;
        }
        integration_init__mark(x2, x9, x6);
        x5 = x9;
        x6 = x6 + UINT32_C(1);
        x7 = x7 + UINT64_C(1);
    }
}

/* integration_init::Wave::extend_los_corner */
static inline void integration_init__Wave__extend_los_corner(
    const integration_init__Wave *x1, HanjolumIntegrationField *x2, uint64_t x3)
{
    HanjolumFieldCell x4, x5;
    fields__CellList x6;
    uint64_t x7;
    HanjolumIntegrationField *x13;
    x4 = fields__FieldCell__from_index(x3);
    x7 = core__convert__UsizeFromU8__from(*(x1->f2 + x3));
    x5 = fields__FieldCell__from_index(x7);
    x6 = bresenham__draw_cells_between_points(x4, x5);
    x13 = x2;
    x7 = x6.f1;
    integration_init__Wave__mark_line(x1, x13, x3, (slice_const_uint8_t){ .at = x6.f0, .length = x7 });
}

/* integration_init::Wave::try_side */
static inline void integration_init__Wave__try_side(
    const integration_init__Wave *x1, HanjolumIntegrationField *x2, uint64_t x3, uint64_t x4,
    utilities__CompassDir x5)
{
    HanjolumFieldCell x6;
    core__option__Option_11 x9;
    HanjolumIntegrationField *x12;
    uint64_t x13;
    switch (integration_init__open_side(x2, x3, x5).tag) {
    case 1:
        break;
    default:
        return;
    }
    x9 = integration_init__open_side(x2, x4, x5);
    switch (x9.tag) {
    case 1:
        x6 = x9.v1_f1;
        break;
    default:
        return;
    }
    x12 = x2;
    x13 = fields__FieldCell__as_1d_index(x6);
    integration_init__Wave__extend_los_corner(x1, x12, x13);
}

/* utilities::CompassDir::inverse */
static inline utilities__CompassDir utilities__CompassDir__inverse(utilities__CompassDir x1)
{
    utilities__CompassDir x2;
    switch (x1.tag) {
    case 0:
        x2 = (utilities__CompassDir){ .tag = UINT8_C(2) };
        break;
    case 1:
        x2 = (utilities__CompassDir){ .tag = UINT8_C(3) };
        break;
    case 2:
        x2 = (utilities__CompassDir){ .tag = UINT8_C(0) };
        break;
    case 3:
        x2 = (utilities__CompassDir){ .tag = UINT8_C(1) };
        break;
    case 4:
        x2 = (utilities__CompassDir){ .tag = UINT8_C(6) };
        break;
    case 5:
        x2 = (utilities__CompassDir){ .tag = UINT8_C(7) };
        break;
    case 6:
        x2 = (utilities__CompassDir){ .tag = UINT8_C(4) };
        break;
    case 7:
        x2 = (utilities__CompassDir){ .tag = UINT8_C(5) };
        break;
    default:
        x2 = (utilities__CompassDir){ .tag = UINT8_C(8) };
        break;
    }
    return x2;
}

/* integration_init::Wave::meet_wall */
static inline void integration_init__Wave__meet_wall(
    const integration_init__Wave *x1, HanjolumIntegrationField *x2, uint64_t x3, uint64_t x4,
    utilities__CompassDir x5)
{
    utilities__CompassDir x6, x10;
    HanjolumIntegrationField *x9;
    x6 = utilities__CompassDir__lower_side(x5);
    integration_init__Wave__try_side(x1, x2, x3, x4, x6);
    x9 = x2;
    x10 = utilities__CompassDir__inverse(x6);
    integration_init__Wave__try_side(x1, x9, x3, x4, x10);
}

/* integration_init::Wave::spread_to */
static inline void integration_init__Wave__spread_to(
    const integration_init__Wave *x1, HanjolumIntegrationField *x2, fields__CellList_2 *x3, uint64_t x4,
    utilities__CompassDir x5, uint64_t x6)
{
    uint32_t x7, x16;
    uint64_t x8;
    fields__CellList_2 *x20;
    x8 = x6 * UINT64_C(4);
    x7 = *(const uint32_t *)((const uint8_t *)x2->field + x8);
    if (integration_init__is_left_alone(x7)) {
        return;
    }
    if (integration_bits__is_impassable(x7)) {
        integration_init__Wave__meet_wall(x1, x2, x4, x6, x5);
        return;
    }
    x16 = x1->f1 + UINT32_C(65536);
    x8 = x6 * UINT64_C(4);
    *(uint32_t *)((uint8_t *)x2->field + x8) = x16;
    x20 = x3;
    fields__CellList__push_2(x20, (uint8_t)x6);
}

/* integration_init::Wave::spread_towards */
static inline void integration_init__Wave__spread_towards(
    const integration_init__Wave *x1, HanjolumIntegrationField *x2, fields__CellList_2 *x3, uint64_t x4,
    utilities__CompassDir x5)
{
    uint64_t x6;
    HanjolumFieldCell x8;
    HanjolumIntegrationField *x10;
    x8 = fields__FieldCell__from_index(x4);
    switch (fields__FieldCell__get_in_compass_direction(x8, x5).tag) {
    case 1:
        break;
    default:
        return;
    }
    x6 = fields__index_beside(x4, x5);
    x10 = x2;
    integration_init__Wave__spread_to(x1, x10, x3, x4, x5, x6);
}

/* integration_init::Wave::spread_around */
static inline void integration_init__Wave__spread_around(
    const integration_init__Wave *x1, HanjolumIntegrationField *x2, fields__CellList_2 *x3, uint64_t x4)
{
    uint8_t x5;
    utilities__CompassDir x6;
    HanjolumIntegrationField *x9;
    x5 = UINT8_C(0);
    UNROLL
    while (x5 < UINT8_C(4)) {
        x6 = utilities__CompassDir__from_boundary(x5);
        x9 = x2;
        integration_init__Wave__spread_towards(x1, x9, x3, x4, x6);
        x5 = (uint8_t)((uint32_t)x5 + UINT32_C(1));
    }
}

/* integration_init::Wave::spread_wave */
static inline void integration_init__Wave__spread_wave(
    const integration_init__Wave *x1, HanjolumIntegrationField *x2, const fields__CellList_2 *x3,
    fields__CellList_2 *x4)
{
    slice_const_uint8_t x5;
    uint64_t x6, x9, x11, x18;
    uint8_t x7;
    const uint8_t *x14;
    HanjolumIntegrationField *x16;
    fields__CellList_2 *x17;
    x4->f1 = UINT64_C(0);
    x9 = x3->f1;
    x5 = (slice_const_uint8_t){ .at = x3->f0, .length = x9 };
    x6 = UINT64_C(0);
    x11 = x5.length;
    while (x6 < x11) {
        x14 = part(x5.at, x6);
        x7 = *x14;
        x16 = x2;
        x17 = x4;
        x18 = core__convert__UsizeFromU8__from(x7);
        integration_init__Wave__spread_around(x1, x16, x17, x18);
        x6 = x6 + UINT64_C(1);
    }
}

/* integration_init::Wave::propagate_los */
static inline void integration_init__Wave__propagate_los(
    integration_init__Wave *x1, HanjolumIntegrationField *x2, fields__CellList_2 *x3, fields__CellList_2 *x4,
    uint64_t x5)
{
    const integration_init__Wave *x9;
    HanjolumIntegrationField *x10, *x16;
    const fields__CellList_2 *x11;
    integration_init__Wave *x15;
    fields__CellList_2 *x17, *x18;
again:;
    if (x5 == UINT64_C(0)) {
        return;
    }
    if (x3->f1 == UINT64_C(0)) {
        return;
    }
    x9 = x1;
    x10 = x2;
    x11 = x3;
    integration_init__Wave__spread_wave(x9, x10, x11, x4);
    x1->f1 = x1->f1 + UINT32_C(1);
    x15 = x1;
    x16 = x2;
    x17 = x4;
    x18 = x3;
    x1 = x15;
    x2 = x16;
    x3 = x17;
    x4 = x18;
    x5 = x5 - UINT64_C(1);
    goto again;
}

/* integration_init::spread_sight */
static inline void integration_init__spread_sight(HanjolumIntegrationField *x1, uint64_t x2)
{
    integration_init__Wave x3;
    fields__CellList_2 x4, x5;
    array_100_uint8_t x6;
    fields__CellList_2 *x10, *x14;
    integration_init__Wave *x12;
    HanjolumIntegrationField *x13;
    x6 = integration_init__ends_to_lend(x1, x2);
    x3.f0 = x2;
    x3.f1 = UINT32_C(1);
    memcpy(x3.f2, x6.at, sizeof x3.f2);
    x4 = fields__CellList__none_2();
    x5 = fields__CellList__none_2();
    x10 = &x4;
    fields__CellList__push_2(x10, (uint8_t)x2);
    x12 = &x3;
    x13 = x1;
    x14 = &x4;
    integration_init__Wave__propagate_los(x12, x13, x14, &x5, UINT64_C(100));
}

/* integration_init::start_from */
NOT_IN_LINE HanjolumIntegrationField integration_init__start_from(const uint8_t *x1, uint64_t x2)
{
    HanjolumIntegrationField x3;
    uint64_t x7;
    x3 = integration_init__unmarked();
    integration_init__mark_walls(x1, x3.field);
    x7 = x2 * UINT64_C(4);
    *(uint32_t *)((uint8_t *)x3.field + x7) = UINT32_C(131072);
    integration_init__spread_sight(&x3, x2);
    return x3;
}

/* integration_init::start_without */
NOT_IN_LINE HanjolumIntegrationField integration_init__start_without(const uint8_t *x1, uint64_t x2)
{
    HanjolumIntegrationField x3;
    uint64_t x7;
    x3 = integration_init__unmarked();
    integration_init__mark_walls(x1, x3.field);
    x7 = x2 * UINT64_C(4);
    *(uint32_t *)((uint8_t *)x3.field + x7) = UINT32_C(131072);
    *(uint64_t *)((uint8_t *)x3.los_corners + UINT64_C(0)) = x2;
    x3.count = UINT64_C(1);
    return x3;
}

/* integration_init::start */
NOT_IN_LINE HanjolumIntegrationField integration_init__start(const uint8_t *x1, route__Target x2)
{
    HanjolumIntegrationField x6;
    switch (x2.tag) {
    case 1:
        x6 = integration_init__start_at(x1, x2.v1_f1);
        break;
    case 0:
        x6 = integration_init__start_from(x1, x2.v0_f1);
        break;
    default:
        x6 = integration_init__start_without(x1, x2.v2_f1);
        break;
    }
    return x6;
}

/* integration_build::corner_wave */
static inline fields__CellList_2 integration_build__corner_wave(slice_const_uint64_t x1)
{
    fields__CellList_2 x2;
    uint64_t x3, x4, x6;
    const uint8_t *x10;
    fields__CellList_2 *x12;
    x2 = fields__CellList__none_2();
    x3 = UINT64_C(0);
    x6 = x1.length;
    while (x3 < x6) {
        x10 = part((const uint8_t *)x1.at, x3 * UINT64_C(8));
        x4 = *(const uint64_t *)x10;
        x12 = &x2;
        fields__CellList__push_2(x12, (uint8_t)x4);
        x3 = x3 + UINT64_C(1);
    }
    return x2;
}

/* core::clone::UsizeClone::clone */
IN_LINE core__result__Result_10 core__clone__UsizeClone__clone(const uint64_t *x1)
{
    return (core__result__Result_10){ .tag = UINT8_C(0), .v0_f1 = *x1 };
}

/* core::clone::surely at u64 */
IN_LINE uint64_t core__clone__surely(const uint64_t *x1)
{
    core__result__Result_10 x3;
    x3 = core__clone__UsizeClone__clone(x1);
    return x3.v0_f1;
}

/* core::slice::edits::slice+T::fill at u64 */
IN_LINE void core__slice__edits__slice_T__fill(slice_uint64_t x1, uint64_t x2)
{
    uint64_t x3, x4, x5, x9, x12;
    x3 = x2;
    x4 = x1.length;
    if (x4 == UINT64_C(0)) {
        return;
    }
    x5 = UINT64_C(0);
    while (x5 < (x4 - UINT64_C(1))) {
        x9 = core__clone__surely(&x3);
        *(uint64_t *)((uint8_t *)x1.at + (x5 * UINT64_C(8))) = x9;
        x5 = x5 + UINT64_C(1);
    }
    x12 = x3;
    *(uint64_t *)((uint8_t *)x1.at + ((x4 - UINT64_C(1)) * UINT64_C(8))) = x12;
}

/* integration_bits::low_bits */
static inline uint32_t integration_bits__low_bits(uint32_t x1)
{
    return x1 & UINT32_C(65535);
}

/* core::convert::U32FromU8::from */
IN_LINE uint32_t core__convert__U32FromU8__from(uint8_t x1)
{
    return (uint32_t)x1;
}

/* integration_bits::is_los */
static inline bool integration_bits__is_los(uint32_t x1)
{
    return (x1 & UINT32_C(65536)) == UINT32_C(65536);
}

/* integration_build::is_written */
static inline bool integration_build__is_written(uint32_t x1, uint32_t x2)
{
    bool x3, x4, x5, x6;
    uint32_t x7;
    x5 = integration_bits__is_impassable(x1);
    x4 = !x5;
    if (x4) {
        x6 = integration_bits__is_los(x1);
        x4 = !x6;
    }
    x3 = x4;
    if (x3) {
        x7 = integration_bits__low_bits(x1);
        x3 = x2 < x7;
    }
    return x3;
}

/* integration_build::is_first */
static inline bool integration_build__is_first(bool x1, uint32_t x2, uint32_t x3)
{
    return x1 & (x2 == x3);
}

/* core::convert::others::UsizeFromBool::from */
IN_LINE uint64_t core__convert__others__UsizeFromBool__from(bool x1)
{
    return (uint64_t)x1;
}

/* fields::CellList::push_if at 100 */
static inline void fields__CellList__push_if(fields__CellList_2 *x1, bool x2, uint8_t x3)
{
    uint64_t x4;
    x4 = x1->f1;
    *(x1->f0 + x4) = x3;
    x4 = core__convert__others__UsizeFromBool__from(x2);
    x1->f1 = x1->f1 + x4;
}

/* integration_build::relax */
static inline void integration_build__relax(uint32_t *x1, const uint32_t *x2, fields__CellList_2 *x3, uint64_t x4, uint32_t x5)
{
    uint32_t x6, x8;
    bool x7, x9, x14;
    uint64_t x10;
    fields__CellList_2 *x21;
    x10 = x4 * UINT64_C(4);
    x6 = *(const uint32_t *)((const uint8_t *)x1 + x10);
    x7 = integration_build__is_written(x6, x5);
    x14 = x7;
    x8 = choose_uint32_t(x14, x5, x6);
    x10 = x4 * UINT64_C(4);
    *(uint32_t *)((uint8_t *)x1 + x10) = x8;
    x10 = x4 * UINT64_C(4);
    x9 = integration_build__is_first(x7, x6, *(const uint32_t *)((const uint8_t *)x2 + x10));
    x21 = x3;
    fields__CellList__push_if(x21, x9, (uint8_t)x4);
}

/* integration_build::offer_towards */
static inline void integration_build__offer_towards(
    uint32_t *x1, const uint8_t *x2, const uint32_t *x3, fields__CellList_2 *x4, uint32_t x5, uint64_t x6,
    utilities__CompassDir x7)
{
    HanjolumFieldCell x8;
    uint64_t x9;
    uint32_t x10, x12;
    uint32_t *x17;
    x8 = fields__FieldCell__from_index(x6);
    switch (fields__FieldCell__get_in_compass_direction(x8, x7).tag) {
    case 1:
        break;
    default:
        return;
    }
    x9 = fields__index_beside(x6, x7);
    x12 = core__convert__U32FromU8__from(*(x2 + x9));
    x10 = x5 + x12;
    x17 = x1;
    integration_build__relax(x17, x3, x4, x9, x10);
}

/* integration_build::offer_around */
static inline void integration_build__offer_around(
    uint32_t *x1, const uint8_t *x2, const uint32_t *x3, fields__CellList_2 *x4, uint32_t x5, uint64_t x6)
{
    array_4_utilities__CompassDir x7, x10;
    uint64_t x8;
    utilities__CompassDir x9, x11, x12, x13, x14;
    uint32_t *x20;
    x11 = (utilities__CompassDir){ .tag = UINT8_C(0) };
    x12 = (utilities__CompassDir){ .tag = UINT8_C(1) };
    x13 = (utilities__CompassDir){ .tag = UINT8_C(2) };
    x14 = (utilities__CompassDir){ .tag = UINT8_C(3) };
    x10 = (array_4_utilities__CompassDir){ { x11, x12, x13, x14 } };
    x7 = x10;
    x8 = UINT64_C(0);
    UNROLL
    while (x8 < UINT64_C(4)) {
        x9 = *(const utilities__CompassDir *)((const uint8_t *)x7.at + x8);
        x20 = x1;
        integration_build__offer_towards(x20, x2, x3, x4, x5, x6, x9);
        x8 = x8 + UINT64_C(1);
    }
}

/* integration_build::offer_wave */
static inline void integration_build__offer_wave(
    uint32_t *x1, const uint8_t *x2, const uint32_t *x3, const fields__CellList_2 *x4, fields__CellList_2 *x5)
{
    slice_const_uint8_t x6;
    uint64_t x7, x9, x12, x14, x18;
    uint8_t x8;
    uint32_t x10;
    const uint8_t *x17;
    uint32_t *x23;
    x12 = x4->f1;
    x6 = (slice_const_uint8_t){ .at = x4->f0, .length = x12 };
    x7 = UINT64_C(0);
    x14 = x6.length;
    while (x7 < x14) {
        x17 = part(x6.at, x7);
        x8 = *x17;
        x9 = core__convert__UsizeFromU8__from(x8);
        x18 = x9 * UINT64_C(4);
        x10 = integration_bits__low_bits(*(const uint32_t *)((const uint8_t *)x3 + x18));
        x23 = x1;
        integration_build__offer_around(x23, x2, x3, x5, x10, x9);
        x7 = x7 + UINT64_C(1);
    }
}

/* integration_build::propagate_integrated_wavefront */
static inline uint64_t integration_build__propagate_integrated_wavefront(
    const uint8_t *x1, uint32_t *x2, uint32_t *x3, fields__CellList_2 *x4, fields__CellList_2 *x5, uint64_t x6,
    uint64_t x7)
{
    uint64_t x9;
    array_100_uint32_t x10;
    uint32_t *x12, *x16, *x17;
    const uint32_t *x13;
    const fields__CellList_2 *x14;
    fields__CellList_2 *x18, *x19;
again:;
    if (x7 == UINT64_C(0)) {
        return x6;
    }
    x9 = x4->f1;
    if (x9 == UINT64_C(0)) {
        return x6;
    }
    memcpy(x10.at, x2, sizeof x10.at);
    memcpy(x3, x10.at, 100 * sizeof(uint32_t));
    x5->f1 = UINT64_C(0);
    x12 = x2;
    x13 = x3;
    x14 = x4;
    integration_build__offer_wave(x12, x1, x13, x14, x5);
    x9 = x5->f1;
    if (x9 == UINT64_C(0)) {
        return x6;
    }
    x16 = x2;
    x17 = x3;
    x18 = x5;
    x19 = x4;
    x9 = x6 + UINT64_C(1);
    x2 = x16;
    x3 = x17;
    x4 = x18;
    x5 = x19;
    x6 = x9;
    x7 = x7 - UINT64_C(1);
    goto again;
}

/* integration_build::run_waves */
static inline uint64_t integration_build__run_waves(const uint8_t *x1, uint32_t *x2, fields__CellList_2 *x3)
{
    array_100_uint32_t x4;
    fields__CellList_2 x5;
    uint32_t *x7, *x8;
    fields__CellList_2 *x9;
    x4 = (array_100_uint32_t){ { 0 } };
    x5 = fields__CellList__none_2();
    x7 = x2;
    x8 = x4.at;
    x9 = x3;
    return integration_build__propagate_integrated_wavefront(x1, x7, x8, x9, &x5, UINT64_C(0), UINT64_C(100));
}

/* integration_build::build_cells */
static inline uint64_t integration_build__build_cells(const uint8_t *x1, HanjolumIntegrationField *x2)
{
    uint64_t x3, x9, x12;
    fields__CellList_2 x4;
    uint8_t *x11;
    uint32_t *x15;
    x3 = x2->count;
    x4 = integration_build__corner_wave((slice_const_uint64_t){ .at = x2->los_corners, .length = x3 });
    x9 = x3 * UINT64_C(8);
    x11 = part_to_write((uint8_t *)x2->los_corners, x9);
    x12 = UINT64_C(100) - x3;
    core__slice__edits__slice_T__fill((slice_uint64_t){ .at = (uint64_t *)x11, .length = x12 }, UINT64_C(0));
    x15 = x2->field;
    return integration_build__run_waves(x1, x15, &x4);
}

/* integration_positions::entered_at */
static inline uint32_t integration_positions__entered_at(uint8_t x1, uint32_t x2, uint32_t x3)
{
    uint32_t x5;
    if (x3 == x2) {
        return UINT32_C(65536);
    }
    x5 = core__convert__U32FromU8__from(x1);
    return x3 - x5;
}

/* integration_positions::entered_from */
static inline array_100_uint32_t integration_positions__entered_from(const uint8_t *x1, const uint32_t *x2, const uint32_t *x3)
{
    array_100_uint32_t x4;
    uint64_t x5, x11, x15, x19;
    uint32_t x7, x14;
    uint8_t x10;
    x4 = (array_100_uint32_t){ { 0 } };
    x5 = UINT64_C(0);
    while (x5 < UINT64_C(100)) {
        x10 = *(x1 + x5);
        x11 = x5 * UINT64_C(4);
        x14 = *(const uint32_t *)((const uint8_t *)x2 + x11);
        x15 = x5 * UINT64_C(4);
        x7 = integration_positions__entered_at(x10, x14, *(const uint32_t *)((const uint8_t *)x3 + x15));
        x19 = x5 * UINT64_C(4);
        *(uint32_t *)((uint8_t *)x4.at + x19) = x7;
        x5 = x5 + UINT64_C(1);
    }
    return x4;
}

/* integration_positions::place_at */
static inline uint64_t integration_positions__place_at(uint32_t *x1, uint8_t *x2, uint64_t x3, uint32_t x4, uint64_t x5)
{
    uint32_t x6, x8;
    bool x7;
    uint64_t x9;
    uint8_t x17;
    x9 = x5 * UINT64_C(4);
    x6 = *(const uint32_t *)((const uint8_t *)x1 + x9);
    x7 = x6 == x4;
    x8 = choose_uint32_t(x7, UINT32_C(65537), x6);
    x9 = x5 * UINT64_C(4);
    *(uint32_t *)((uint8_t *)x1 + x9) = x8;
    x17 = (uint8_t)x5;
    *(x2 + x3) = x17;
    x9 = core__convert__others__UsizeFromBool__from(x7);
    return x3 + x9;
}

/* integration_positions::place_towards */
IN_LINE uint64_t integration_positions__place_towards(
    uint32_t *x1, uint8_t *x2, uint64_t x3, uint32_t x4, uint64_t x5, utilities__CompassDir x6)
{
    HanjolumFieldCell x7;
    uint64_t x9;
    uint32_t *x11;
    x7 = fields__FieldCell__from_index(x5);
    switch (fields__FieldCell__get_in_compass_direction(x7, x6).tag) {
    case 1:
        break;
    default:
        return x3;
    }
    x9 = fields__index_beside(x5, x6);
    x11 = x1;
    return integration_positions__place_at(x11, x2, x3, x4, x9);
}

/* integration_positions::place_around */
static inline uint64_t integration_positions__place_around(uint32_t *x1, uint8_t *x2, uint64_t x3, uint32_t x4, uint64_t x5)
{
    uint64_t x6, x7, x8;
    uint32_t *x9, *x12, *x14, *x16;
    uint8_t *x10, *x13, *x15, *x17;
    x9 = x1;
    x10 = x2;
    x6 = integration_positions__place_towards(x9, x10, x3, x4, x5, (utilities__CompassDir){ .tag = UINT8_C(0) });
    x12 = x1;
    x13 = x2;
    x7 = integration_positions__place_towards(x12, x13, x6, x4, x5, (utilities__CompassDir){ .tag = UINT8_C(1) });
    x14 = x1;
    x15 = x2;
    x8 = integration_positions__place_towards(x14, x15, x7, x4, x5, (utilities__CompassDir){ .tag = UINT8_C(2) });
    x16 = x1;
    x17 = x2;
    return integration_positions__place_towards(x16, x17, x8, x4, x5, (utilities__CompassDir){ .tag = UINT8_C(3) });
}

/* integration_positions::flood */
static inline uint64_t integration_positions__flood(
    const uint32_t *x1, uint32_t *x2, uint8_t *x3, uint8_t *x4, uint64_t x5, uint64_t x6, uint8_t x7)
{
    uint64_t x8, x9, x10, x16;
    uint32_t x11;
    uint32_t *x22;
    x8 = x6;
    x9 = x5;
    while (x9 < x8) {
        x10 = core__convert__UsizeFromU8__from(*(x4 + x9));
        x16 = x10 * UINT64_C(4);
        x11 = integration_bits__low_bits(*(const uint32_t *)((const uint8_t *)x1 + x16));
        *(x3 + x10) = x7;
        x22 = x2;
        x8 = integration_positions__place_around(x22, x4, x8, x11, x10);
        x9 = x9 + UINT64_C(1);
    }
    return x8;
}

/* integration_positions::place_corner */
static inline uint64_t integration_positions__place_corner(
    const uint32_t *x1, uint32_t *x2, uint8_t *x3, uint8_t *x4, uint64_t x5, uint8_t x6, uint64_t x7)
{
    uint64_t x8;
    uint32_t *x9, *x11;
    uint8_t *x12;
    x9 = x2;
    x8 = integration_positions__place_at(x9, x4, x5, UINT32_C(65536), x7);
    x11 = x2;
    x12 = x3;
    return integration_positions__flood(x1, x11, x12, x4, x5, x8, x6);
}

/* integration_positions::place_corners */
static inline void integration_positions__place_corners(
    const uint32_t *x1, uint32_t *x2, uint8_t *x3, const uint64_t *x4, uint64_t x5)
{
    array_101_uint8_t x6;
    uint64_t x7, x8, x9, x12;
    uint8_t x10;
    uint32_t *x16;
    uint8_t *x17;
    x6 = (array_101_uint8_t){ { 0 } };
    x7 = UINT64_C(0);
    x8 = UINT64_C(0);
    while (x8 < x5) {
        x12 = x8 * UINT64_C(8);
        x9 = *(const uint64_t *)((const uint8_t *)x4 + x12);
        x10 = (uint8_t)x8;
        x16 = x2;
        x17 = x3;
        x7 = integration_positions__place_corner(x1, x16, x17, x6.at, x7, x10, x9);
        x8 = x8 + UINT64_C(1);
    }
}

/* integration_bits::is_goal */
static inline bool integration_bits__is_goal(uint32_t x1)
{
    return (x1 & UINT32_C(131072)) == UINT32_C(131072);
}

/* integration_positions::kept */
static inline uint8_t integration_positions__kept(uint32_t x1, uint8_t x2)
{
    bool x5;
    if (integration_bits__is_impassable(x1)) {
        return UINT8_C(255);
    }
    if (integration_bits__is_los(x1)) {
        return UINT8_C(255);
    }
    x5 = integration_bits__is_goal(x1);
    return choose_uint8_t(x5, UINT8_C(255), x2);
}

/* integration_positions::keep */
static inline array_100_uint8_t integration_positions__keep(const uint32_t *x1, const uint8_t *x2)
{
    array_100_uint8_t x3;
    uint64_t x4, x7;
    uint8_t x6;
    uint32_t x10;
    x3 = (array_100_uint8_t){ { 0 } };
    x4 = UINT64_C(0);
    while (x4 < UINT64_C(100)) {
        x7 = x4 * UINT64_C(4);
        x10 = *(const uint32_t *)((const uint8_t *)x1 + x7);
        x6 = integration_positions__kept(x10, *(x2 + x4));
        *(x3.at + x4) = x6;
        x4 = x4 + UINT64_C(1);
    }
    return x3;
}

/* integration_positions::corner_positions */
static inline array_100_uint8_t integration_positions__corner_positions(
    const uint8_t *x1, const uint32_t *x2, const uint32_t *x3, const uint64_t *x4, uint64_t x5)
{
    array_100_uint8_t x0, x7;
    array_100_uint32_t x6, x9;
    uint32_t *x11;
    if (x5 == UINT64_C(0)) {
        for (uint32_t k1 = 0; k1 < 100; k1++) {
            x0.at[k1] = UINT8_C(255);
        }
        return x0;
    }
    x9 = integration_positions__entered_from(x1, x2, x3);
    x6 = x9;
    for (uint32_t k2 = 0; k2 < 100; k2++) {
        x7.at[k2] = UINT8_C(255);
    }
    x11 = x6.at;
    integration_positions__place_corners(x3, x11, x7.at, x4, x5);
    x0 = integration_positions__keep(x2, x7.at);
    return x0;
}

/* integration_build::build_with_positions */
NOT_IN_LINE HanjolumBuildAnswer integration_build__build_with_positions(const uint8_t *x1, HanjolumIntegrationField x2)
{
    HanjolumIntegrationField x3;
    HanjolumBuildAnswer x4;
    uint64_t x6;
    array_100_uint8_t x8;
    const uint32_t *x9, *x10;
    const uint64_t *x11;
    x3 = x2;
    x4 = (HanjolumBuildAnswer){ .number = UINT8_C(0), .field = x3, .waves = UINT64_C(0) };
    x6 = integration_build__build_cells(x1, &x4.field);
    x4.waves = x6;
    x9 = x3.field;
    x10 = x4.field.field;
    x11 = x4.field.los_corners;
    x6 = x4.field.count;
    x8 = integration_positions__corner_positions(x1, x9, x10, x11, x6);
    memcpy(x4.field.positions, x8.at, 100 * sizeof(uint8_t));
    return x4;
}

/* route::Target::window */
static inline fields__CellList route__Target__window(route__Target x1)
{
    fields__CellList x3;
    switch (x1.tag) {
    case 1:
        x3 = x1.v1_f1;
        break;
    default:
        x3 = fields__CellList__none();
        break;
    }
    return x3;
}

/* integration_bits::is_portal */
static inline bool integration_bits__is_portal(uint32_t x1)
{
    return (x1 & UINT32_C(524288)) == UINT32_C(524288);
}

/* flow_new::starting_flags */
static inline uint8_t flow_new__starting_flags(uint32_t x1)
{
    bool x6;
    if (integration_bits__is_goal(x1)) {
        return (uint8_t)((uint32_t)(uint8_t)(UINT32_C(64) | UINT32_C(16)) | UINT32_C(32));
    }
    if (integration_bits__is_portal(x1)) {
        return (uint8_t)(UINT32_C(128) | UINT32_C(16));
    }
    if (integration_bits__is_los(x1)) {
        return (uint8_t)(UINT32_C(32) | UINT32_C(16));
    }
    x6 = integration_bits__is_impassable(x1);
    return choose_uint8_t(x6, UINT8_C(224), UINT8_C(0));
}

/* flow_new::start_cells */
static inline array_100_uint8_t flow_new__start_cells(const uint32_t *x1)
{
    array_100_uint8_t x2;
    uint64_t x3, x6;
    uint8_t x5;
    x2 = (array_100_uint8_t){ { 0 } };
    x3 = UINT64_C(0);
    while (x3 < UINT64_C(100)) {
        x6 = x3 * UINT64_C(4);
        x5 = flow_new__starting_flags(*(const uint32_t *)((const uint8_t *)x1 + x6));
        *(x2.at + x3) = x5;
        x3 = x3 + UINT64_C(1);
    }
    return x2;
}

/* flow_bits::convert_compass_dir_to_bits_dir */
static inline uint8_t flow_bits__convert_compass_dir_to_bits_dir(utilities__CompassDir x1)
{
    uint8_t x2;
    switch (x1.tag) {
    case 0:
        x2 = UINT8_C(1);
        break;
    case 1:
        x2 = UINT8_C(2);
        break;
    case 2:
        x2 = UINT8_C(4);
        break;
    case 3:
        x2 = UINT8_C(8);
        break;
    case 4:
        x2 = UINT8_C(3);
        break;
    case 5:
        x2 = UINT8_C(6);
        break;
    case 6:
        x2 = UINT8_C(12);
        break;
    case 7:
        x2 = UINT8_C(9);
        break;
    default:
        x2 = UINT8_C(0);
        break;
    }
    return x2;
}

/* core::int::usize::saturating_sub */
IN_LINE uint64_t core__int__usize__saturating_sub(uint64_t x1, uint64_t x2)
{
    uint64_t x4;
    if (x2 <= x1) {
        x4 = x1 - x2;
    } else {
        x4 = UINT64_C(0);
    }
    return x4;
}

/* route::facing_cell */
static inline uint64_t route__facing_cell(utilities__CompassDir x1, uint64_t x2)
{
    utilities__Differences x3;
    uint64_t x4, x9;
    x3 = utilities__CompassDir__differences(x1);
    x4 = signed_sum((x2 % UINT64_C(10)) + UINT64_C(10), x3.f0);
    x9 = (signed_sum((x2 / UINT64_C(10)) + UINT64_C(10), x3.f1) % UINT64_C(10)) * UINT64_C(10);
    return x9 + (x4 % UINT64_C(10));
}

/* flow_new::facing_value */
static inline uint32_t flow_new__facing_value(const uint32_t *x1, utilities__CompassDir x2, uint64_t x3)
{
    uint64_t x4, x5;
    x4 = route__facing_cell(x2, x3);
    x5 = x4 * UINT64_C(4);
    return integration_bits__low_bits(*(const uint32_t *)((const uint8_t *)x1 + x5));
}

/* flow_new::side_value */
static inline uint32_t flow_new__side_value(const uint32_t *x1, utilities__CompassDir x2, uint64_t x3, uint64_t x4, uint64_t x5)
{
    if (x3 == x4) {
        return UINT32_C(65536);
    }
    return flow_new__facing_value(x1, x2, x5);
}

/* flow_new::seen_values */
static inline flow_byte__SeenValues flow_new__seen_values(route__PortalWindow x1, const uint32_t *x2, uint64_t x3)
{
    utilities__CompassDir x4;
    uint64_t x5, x6, x7;
    uint32_t x8, x9, x10;
    x4 = x1.f2;
    x5 = route__stride_of(x4);
    x6 = core__int__usize__saturating_sub(x3, x5);
    x7 = x3 + x5;
    x8 = flow_new__side_value(x2, x4, x3, x1.f0, x6);
    x9 = flow_new__facing_value(x2, x4, x3);
    x10 = flow_new__side_value(x2, x4, x3, x1.f1, x7);
    return (flow_byte__SeenValues){ .f0 = x8, .f1 = x9, .f2 = x10 };
}

/* flow_new::facing_bits */
static inline uint8_t flow_new__facing_bits(utilities__CompassDir x1, flow_byte__SeenValues x2)
{
    uint8_t x3, x9, x10;
    utilities__CompassDir x4, x11;
    x3 = flow_bits__convert_compass_dir_to_bits_dir(x1);
    x4 = utilities__CompassDir__lower_side(x1);
    if (x2.f1 <= x2.f0) {
        if (x2.f1 <= x2.f2) {
            return x3;
        }
    }
    if (x2.f0 <= x2.f1) {
        if (x2.f0 <= x2.f2) {
            x9 = flow_bits__convert_compass_dir_to_bits_dir(x4);
            return (uint8_t)((uint32_t)x3 + (uint32_t)x9);
        }
    }
    x11 = utilities__CompassDir__inverse(x4);
    x10 = flow_bits__convert_compass_dir_to_bits_dir(x11);
    return (uint8_t)((uint32_t)x3 + (uint32_t)x10);
}

/* flow_new::portal_direction */
static inline uint8_t flow_new__portal_direction(route__PortalWindow x1, core__option__Option_4 x2, uint64_t x3)
{
    utilities__CompassDir x4;
    const uint32_t *x5;
    flow_byte__SeenValues x7;
    x4 = x1.f2;
    switch (x2.tag) {
    case 1:
        x5 = x2.v1_f1;
        break;
    default:
        return flow_bits__convert_compass_dir_to_bits_dir(x4);
    }
    if (x1.f0 == x1.f1) {
        return flow_bits__convert_compass_dir_to_bits_dir(x4);
    }
    x7 = flow_new__seen_values(x1, x5, x3);
    return flow_new__facing_bits(x4, x7);
}

/* flow_new::point_portals */
static inline void flow_new__point_portals(route__PortalWindow x1, fields__CellList x2, core__option__Option_4 x3, uint8_t *x4)
{
    fields__CellList x5;
    slice_const_uint8_t x6;
    uint64_t x7, x9, x11, x13;
    const uint8_t *x8, *x15;
    uint8_t x16;
    uint8_t *x19;
    x5 = x2;
    x11 = x5.f1;
    x6 = (slice_const_uint8_t){ .at = x5.f0, .length = x11 };
    x7 = UINT64_C(0);
    x13 = x6.length;
    while (x7 < x13) {
        x15 = part(x6.at, x7);
        x8 = x15;
        x16 = *x8;
        x9 = core__convert__UsizeFromU8__from(x16);
        x16 = flow_new__portal_direction(x1, x3, x9);
        x19 = x4 + x9;
        *x19 = (uint8_t)((uint32_t)*x19 | (uint32_t)x16);
        x7 = x7 + UINT64_C(1);
    }
}

/* flow_new::new_cells */
static inline void flow_new__new_cells(
    core__option__Option_5 x1, fields__CellList x2, HanjolumIntegrationField x3, core__option__Option_4 x4,
    uint8_t *x5)
{
    array_100_uint32_t x6;
    route__PortalWindow x7;
    array_100_uint8_t x8;
    core__option__Option_4 x11;
    memcpy(x6.at, x3.field, sizeof x6.at);
    x8 = flow_new__start_cells(x6.at);
    memcpy(x5, x8.at, 100 * sizeof(uint8_t));
    switch (x1.tag) {
    case 1:
        x7 = x1.v1_f1;
        x11 = x4;
        flow_new__point_portals(x7, x2, x11, x5);
        break;
    default:
        break;
    }
}

/* flow_bits::is_pathable */
static inline bool flow_bits__is_pathable(uint8_t x1)
{
    return (uint8_t)((uint32_t)x1 & UINT32_C(16)) == UINT8_C(16);
}

/* flow_bits::is_impassable */
static inline bool flow_bits__is_impassable(uint8_t x1)
{
    return (uint8_t)((uint32_t)x1 & UINT32_C(224)) == UINT8_C(224);
}

/* flow_build::is_kept */
static inline bool flow_build__is_kept(uint8_t x1)
{
    bool x2, x3;
    x2 = flow_bits__is_pathable(x1);
    x3 = flow_bits__is_impassable(x1);
    return x2 | x3;
}

/* flow_build::none_looks */
static inline bool flow_build__none_looks(const uint8_t *x1)
{
    bool x2, x8;
    uint64_t x3;
    const uint8_t *x4, *x7;
    x2 = true;
    x3 = UINT64_C(0);
    while (x3 < UINT64_C(100)) {
        x7 = part(x1, x3);
        x4 = x7;
        x8 = flow_build__is_kept(*x4);
        x2 = x2 & x8;
        x3 = x3 + UINT64_C(1);
    }
    return x2;
}

/* flow_build::key_of */
static inline uint32_t flow_build__key_of(uint32_t x1)
{
    uint32_t x2;
    if (integration_bits__is_impassable(x1)) {
        return UINT32_C(65537);
    }
    if (integration_bits__is_goal(x1)) {
        return UINT32_C(0);
    }
    if (integration_bits__is_portal(x1)) {
        return UINT32_C(0);
    }
    x2 = integration_bits__low_bits(x1);
    if (x2 == UINT32_C(65535)) {
        return UINT32_C(1);
    }
    return x2 + UINT32_C(2);
}

/* flow_build::keys_of */
static inline array_100_uint32_t flow_build__keys_of(const uint32_t *x1)
{
    array_100_uint32_t x2;
    uint64_t x3, x6, x10;
    uint32_t x5;
    x2 = (array_100_uint32_t){ { 0 } };
    x3 = UINT64_C(0);
    while (x3 < UINT64_C(100)) {
        x6 = x3 * UINT64_C(4);
        x5 = flow_build__key_of(*(const uint32_t *)((const uint8_t *)x1 + x6));
        x10 = x3 * UINT64_C(4);
        *(uint32_t *)((uint8_t *)x2.at + x10) = x5;
        x3 = x3 + UINT64_C(1);
    }
    return x2;
}

/* flow_build::seen_key */
static inline uint32_t flow_build__seen_key(const uint32_t *x1, const uint32_t *x2, HanjolumFieldCell x3, HanjolumFieldCell x4)
{
    uint32_t x5, x6;
    uint64_t x10;
    bool x18;
    x10 = ((x4.row * UINT64_C(10)) + x4.column) * UINT64_C(4);
    x5 = *(const uint32_t *)((const uint8_t *)x2 + x10);
    x10 = ((x3.row * UINT64_C(10)) + x4.column) * UINT64_C(4);
    x6 = *(const uint32_t *)((const uint8_t *)x1 + x10);
    x10 = ((x4.row * UINT64_C(10)) + x3.column) * UINT64_C(4);
    x18 = integration_bits__passes_wall(x3, x4, x6, *(const uint32_t *)((const uint8_t *)x1 + x10));
    return choose_uint32_t(x18, UINT32_C(65537), x5);
}

/* flow_build::is_noted */
static inline bool flow_build__is_noted(uint32_t x1, uint32_t x2)
{
    bool x3;
    x3 = x2 != UINT32_C(1);
    return x3 & (x1 < x2);
}

/* flow_build::key_after */
static inline uint32_t flow_build__key_after(uint32_t x1, uint32_t x2)
{
    bool x3;
    x3 = flow_build__is_noted(x1, x2);
    return choose_uint32_t(x3, x1, x2);
}

/* flow_build::bits_after */
static inline uint8_t flow_build__bits_after(uint32_t x1, uint32_t x2, uint8_t x3, uint8_t x4)
{
    bool x5;
    x5 = flow_build__is_noted(x1, x2);
    return choose_uint8_t(x5 & (x1 != UINT32_C(1)), x3, x4);
}

/* flow_build::look_from */
static inline void flow_build__look_from(
    const uint32_t *x1, const uint32_t *x2, HanjolumFieldCell x3, utilities__CompassDir x4, uint32_t *x5,
    uint8_t *x6)
{
    HanjolumFieldCell x7;
    uint32_t x8, x11, x17;
    uint8_t x9, x12, x20;
    uint64_t x10, x14;
    core__option__Option_11 x13;
    x13 = fields__FieldCell__get_in_compass_direction(x3, x4);
    switch (x13.tag) {
    case 1:
        x7 = x13.v1_f1;
        break;
    default:
        return;
    }
    x8 = flow_build__seen_key(x1, x2, x3, x7);
    x9 = flow_bits__convert_compass_dir_to_bits_dir(x4);
    x14 = x3.row * UINT64_C(10);
    x10 = x14 + x3.column;
    x14 = x10 * UINT64_C(4);
    x17 = *(const uint32_t *)((const uint8_t *)x5 + x14);
    x11 = x17;
    x20 = *(x6 + x10);
    x12 = x20;
    x17 = flow_build__key_after(x8, x11);
    x14 = x10 * UINT64_C(4);
    *(uint32_t *)((uint8_t *)x5 + x14) = x17;
    x20 = flow_build__bits_after(x8, x11, x9, x12);
    *(x6 + x10) = x20;
}

/* flow_build::look_from_row */
static inline void flow_build__look_from_row(
    const uint32_t *x1, const uint32_t *x2, uint64_t x3, utilities__CompassDir x4, uint32_t *x5, uint8_t *x6)
{
    uint64_t x7;
    HanjolumFieldCell x10;
    uint32_t *x11;
    x7 = UINT64_C(0);
    UNROLL
    while (x7 < UINT64_C(10)) {
        x10 = (HanjolumFieldCell){ .column = x7, .row = x3 };
        x11 = x5;
        flow_build__look_from(x1, x2, x10, x4, x11, x6);
        x7 = x7 + UINT64_C(1);
    }
}

/* flow_build::look_in_direction */
IN_LINE void flow_build__look_in_direction(
    const uint32_t *x1, const uint32_t *x2, utilities__CompassDir x3, uint32_t *x4, uint8_t *x5)
{
    uint64_t x6;
    uint32_t *x9;
    x6 = UINT64_C(0);
    while (x6 < UINT64_C(10)) {
        x9 = x4;
        flow_build__look_from_row(x1, x2, x6, x3, x9, x5);
        x6 = x6 + UINT64_C(1);
    }
}

/* flow_build::look_around */
static inline void flow_build__look_around(const uint32_t *x1, uint32_t *x2, uint8_t *x3)
{
    array_100_uint32_t x4, x5;
    const uint32_t *x7, *x11, *x14, *x17, *x20, *x23, *x26, *x29;
    utilities__CompassDir x8;
    uint32_t *x9, *x12, *x15, *x18, *x21, *x24, *x27, *x30;
    x5 = flow_build__keys_of(x1);
    x4 = x5;
    x7 = x4.at;
    x8 = (utilities__CompassDir){ .tag = UINT8_C(0) };
    x9 = x2;
    flow_build__look_in_direction(x1, x7, x8, x9, x3);
    x11 = x4.at;
    x8 = (utilities__CompassDir){ .tag = UINT8_C(1) };
    x12 = x2;
    flow_build__look_in_direction(x1, x11, x8, x12, x3);
    x14 = x4.at;
    x8 = (utilities__CompassDir){ .tag = UINT8_C(2) };
    x15 = x2;
    flow_build__look_in_direction(x1, x14, x8, x15, x3);
    x17 = x4.at;
    x8 = (utilities__CompassDir){ .tag = UINT8_C(3) };
    x18 = x2;
    flow_build__look_in_direction(x1, x17, x8, x18, x3);
    x20 = x4.at;
    x8 = (utilities__CompassDir){ .tag = UINT8_C(4) };
    x21 = x2;
    flow_build__look_in_direction(x1, x20, x8, x21, x3);
    x23 = x4.at;
    x8 = (utilities__CompassDir){ .tag = UINT8_C(5) };
    x24 = x2;
    flow_build__look_in_direction(x1, x23, x8, x24, x3);
    x26 = x4.at;
    x8 = (utilities__CompassDir){ .tag = UINT8_C(6) };
    x27 = x2;
    flow_build__look_in_direction(x1, x26, x8, x27, x3);
    x29 = x4.at;
    x8 = (utilities__CompassDir){ .tag = UINT8_C(7) };
    x30 = x2;
    flow_build__look_in_direction(x1, x29, x8, x30, x3);
}

/* flow_build::looked_byte */
static inline uint8_t flow_build__looked_byte(uint8_t x1, uint32_t x2, uint8_t x3)
{
    uint8_t x4, x7, x8;
    if (x2 == UINT32_C(1)) {
        x7 = (uint8_t)((uint32_t)x1 | UINT32_C(224));
    } else {
        x7 = x1;
    }
    x4 = x7;
    if (x3 == UINT8_C(0)) {
        x8 = UINT8_C(224);
    } else {
        x8 = (uint8_t)(UINT32_C(16) | (uint32_t)x3);
    }
    return (uint8_t)((uint32_t)x4 | (uint32_t)x8);
}

/* flow_build::byte_after */
static inline uint8_t flow_build__byte_after(uint8_t x1, uint32_t x2, uint8_t x3)
{
    if (flow_build__is_kept(x1)) {
        return x1;
    }
    return flow_build__looked_byte(x1, x2, x3);
}

/* flow_build::point_cells */
static inline void flow_build__point_cells(const uint32_t *x1, const uint8_t *x2, uint8_t *x3)
{
    uint64_t x4, x10;
    uint8_t x6, x9;
    uint32_t x13;
    x4 = UINT64_C(0);
    while (x4 < UINT64_C(100)) {
        x9 = *(x3 + x4);
        x10 = x4 * UINT64_C(4);
        x13 = *(const uint32_t *)((const uint8_t *)x1 + x10);
        x6 = flow_build__byte_after(x9, x13, *(x2 + x4));
        *(x3 + x4) = x6;
        x4 = x4 + UINT64_C(1);
    }
}

/* flow_build::calculate_flow_cells */
static inline void flow_build__calculate_flow_cells(const uint32_t *x1, uint8_t *x2)
{
    array_100_uint32_t x3;
    array_100_uint8_t x4;
    uint32_t *x8;
    const uint32_t *x10;
    const uint8_t *x11;
    if (flow_build__none_looks(x2)) {
        return;
    }
    for (uint32_t k1 = 0; k1 < 100; k1++) {
        x3.at[k1] = UINT32_C(65537);
    }
    x4 = (array_100_uint8_t){ { 0 } };
    x8 = x3.at;
    flow_build__look_around(x1, x8, x4.at);
    x10 = x3.at;
    x11 = x4.at;
    flow_build__point_cells(x10, x11, x2);
}

/* flow_build::build_cells */
static inline void flow_build__build_cells(HanjolumIntegrationField x1, uint8_t *x2)
{
    array_100_uint32_t x3;
    const uint32_t *x5;
    memcpy(x3.at, x1.field, sizeof x3.at);
    x5 = x3.at;
    flow_build__calculate_flow_cells(x5, x2);
}

/* sector::write */
static inline void sector__write(
    core__option__Option_5 x1, fields__CellList x2, HanjolumIntegrationField x3, core__option__Option_4 x4,
    uint8_t *x5)
{
    core__option__Option_4 x7;
    x7 = x4;
    flow_new__new_cells(x1, x2, x3, x7, x5);
    flow_build__build_cells(x3, x5);
}

/* sector::run */
NOT_IN_LINE HanjolumBuildAnswer sector__run(
    const uint8_t *x1, route__Target x2, core__option__Option_5 x3, core__option__Option_4 x4, uint8_t *x5)
{
    HanjolumIntegrationField x6, x8;
    HanjolumBuildAnswer x7;
    fields__CellList x10;
    core__option__Option_4 x11;
    x6 = integration_init__start(x1, x2);
    x7 = integration_build__build_with_positions(x1, x6);
    x8 = x7.field;
    x10 = route__Target__window(x2);
    x11 = x4;
    sector__write(x3, x10, x8, x11, x5);
    return x7;
}

/* sector::plan_by_sight */
NOT_IN_LINE HanjolumBuildAnswer sector__plan_by_sight(
    slice_const_uint8_t x1, slice_const_uint8_t x2, bool x3, core__option__Option x4, slice_uint8_t x5)
{
    const uint8_t *x6;
    uint8_t *x7;
    route__RouteStep x8;
    route__Target x9, x23;
    core__option__Option_4 x10, x25;
    core__result__Result_5 x12;
    uint8_t x13, x18, x27;
    core__option__Option_3 x15;
    core__result__Result_4 x20;
    HanjolumBuildAnswer x22;
    core__option__Option_5 x24;
    x12 = core__convert__lends__RefArrayTryFromRefSlice__try_from(x1);
    switch (x12.tag) {
    case 0:
        x6 = x12.v0_f1;
        break;
    default:
        x13 = refusals__Refusal__number((refusals__Refusal){ .tag = UINT8_C(0) });
        return integration_field__refused(x13);
    }
    x15 = core__slice__chunk_mut__slice_T__as_mut_array((slice_uint8_t){ .at = x5.at, .length = x5.length });
    switch (x15.tag) {
    case 1:
        x7 = x15.v1_f1;
        break;
    default:
        x18 = refusals__Refusal__number((refusals__Refusal){ .tag = UINT8_C(1) });
        return integration_field__refused(x18);
    }
    x8 = route__RouteStep__new(x2);
    x9 = route__RouteStep__as_target(x8);
    x20 = sector__accepted_previous(x6, x2, x9, x4);
    switch (x20.tag) {
    case 0:
        x10 = x20.v0_f1;
        x23 = route__Target__by_sight(x9, x3);
        x24 = x8.f2;
        x25 = x10;
        x22 = sector__run(x6, x23, x24, x25, x7);
        break;
    default:
        x27 = refusals__Refusal__number(x20.v1_f1);
        x22 = integration_field__refused(x27);
        break;
    }
    return x22;
}

/* sector::plan_sector */
NOT_IN_LINE HanjolumBuildAnswer sector__plan_sector(
    slice_const_uint8_t x1, slice_const_uint8_t x2, core__option__Option x3, slice_uint8_t x4)
{
    core__option__Option x5;
    x5 = x3;
    return sector__plan_by_sight(x1, x2, true, x5, (slice_uint8_t){ .at = x4.at, .length = x4.length });
}

/* hanjolum::hanjolum_sector */
HanjolumBuildAnswer hanjolum_sector(
    const uint8_t *costs, size_t costs_length, const uint8_t *step, size_t step_length, bool has_previous,
    const uint32_t *previous, size_t previous_length, uint8_t *sheet, size_t sheet_length)
{
    slice_const_uint8_t x1 = { costs, costs_length };
    slice_const_uint8_t x2 = { step, step_length };
    slice_const_uint32_t x4 = { previous, previous_length };
    slice_uint8_t x5 = { sheet, sheet_length };
    core__option__Option x6;
    x6 = core__bool__then_some(has_previous, x4);
    return sector__plan_sector(x1, x2, x6, (slice_uint8_t){ .at = x5.at, .length = x5.length });
}

/* sector::plan_sector_without_sight */
NOT_IN_LINE HanjolumBuildAnswer sector__plan_sector_without_sight(
    slice_const_uint8_t x1, slice_const_uint8_t x2, core__option__Option x3, slice_uint8_t x4)
{
    core__option__Option x5;
    x5 = x3;
    return sector__plan_by_sight(x1, x2, false, x5, (slice_uint8_t){ .at = x4.at, .length = x4.length });
}

/* hanjolum::hanjolum_sector_without_sight */
HanjolumBuildAnswer hanjolum_sector_without_sight(
    const uint8_t *costs, size_t costs_length, const uint8_t *step, size_t step_length, bool has_previous,
    const uint32_t *previous, size_t previous_length, uint8_t *sheet, size_t sheet_length)
{
    slice_const_uint8_t x1 = { costs, costs_length };
    slice_const_uint8_t x2 = { step, step_length };
    slice_const_uint32_t x4 = { previous, previous_length };
    slice_uint8_t x5 = { sheet, sheet_length };
    core__option__Option x6;
    x6 = core__bool__then_some(has_previous, x4);
    return sector__plan_sector_without_sight(x1, x2, x6, (slice_uint8_t){ .at = x5.at, .length = x5.length });
}

/* core::slice::arrays::some at &[u8; 100] */
IN_LINE core__option__Option_2 core__slice__arrays__some(const uint8_t *x1)
{
    return (core__option__Option_2){ .tag = UINT8_C(1), .v1_f1 = x1 };
}

/* core::slice::arrays::slice+T::as_array at u8, 100 */
IN_LINE core__option__Option_2 core__slice__arrays__slice_T__as_array(slice_const_uint8_t x1)
{
    const uint8_t *x4;
    if (x1.length != UINT64_C(100)) {
        return (core__option__Option_2){ .tag = UINT8_C(0) };
    }
    x4 = core__slice__arrays__as_array_ref(x1);
    return core__slice__arrays__some(x4);
}

/* flow_bits::is_goal */
static inline bool flow_bits__is_goal(uint8_t x1)
{
    bool x2;
    x2 = (uint8_t)((uint32_t)x1 & UINT32_C(64)) == UINT8_C(64);
    if (x2) {
        x2 = flow_bits__is_pathable(x1);
    }
    return x2;
}

/* flow_bits::has_line_of_sight */
static inline bool flow_bits__has_line_of_sight(uint8_t x1)
{
    bool x2;
    x2 = (uint8_t)((uint32_t)x1 & UINT32_C(32)) == UINT8_C(32);
    if (x2) {
        x2 = flow_bits__is_pathable(x1);
    }
    return x2;
}

/* flow_bits::is_portal_goal */
static inline bool flow_bits__is_portal_goal(uint8_t x1)
{
    bool x2;
    x2 = (uint8_t)((uint32_t)x1 & UINT32_C(128)) == UINT8_C(128);
    if (x2) {
        x2 = flow_bits__is_pathable(x1);
    }
    return x2;
}

/* flow_following::is_arrival */
static inline bool flow_following__is_arrival(uint8_t x1)
{
    bool x2, x3;
    x3 = flow_bits__is_goal(x1);
    if (!x3) {
        x3 = flow_bits__has_line_of_sight(x1);
    }
    x2 = x3;
    if (!x2) {
        x2 = flow_bits__is_portal_goal(x1);
    }
    return x2;
}

/* flow_bits::get_compass_dir_from_bits */
static inline utilities__CompassDir flow_bits__get_compass_dir_from_bits(uint8_t x1)
{
    utilities__CompassDir x3;
    switch ((uint8_t)((uint32_t)x1 & UINT32_C(15))) {
    case 1:
        x3 = (utilities__CompassDir){ .tag = UINT8_C(0) };
        break;
    case 2:
        x3 = (utilities__CompassDir){ .tag = UINT8_C(1) };
        break;
    case 4:
        x3 = (utilities__CompassDir){ .tag = UINT8_C(2) };
        break;
    case 8:
        x3 = (utilities__CompassDir){ .tag = UINT8_C(3) };
        break;
    case 3:
        x3 = (utilities__CompassDir){ .tag = UINT8_C(4) };
        break;
    case 6:
        x3 = (utilities__CompassDir){ .tag = UINT8_C(5) };
        break;
    case 12:
        x3 = (utilities__CompassDir){ .tag = UINT8_C(6) };
        break;
    case 9:
        x3 = (utilities__CompassDir){ .tag = UINT8_C(7) };
        break;
    default:
        x3 = (utilities__CompassDir){ .tag = UINT8_C(8) };
        break;
    }
    return x3;
}

/* flow_following::next_cell */
static inline core__option__Option_11 flow_following__next_cell(uint8_t x1, uint64_t x2)
{
    HanjolumFieldCell x3;
    utilities__CompassDir x4;
    x3 = fields__FieldCell__from_index(x2);
    x4 = flow_bits__get_compass_dir_from_bits(x1);
    return fields__FieldCell__get_in_compass_direction(x3, x4);
}

/* flow_following::first_trail */
static inline uint16_t flow_following__first_trail(uint8_t x1, uint64_t x2)
{
    uint16_t x3;
    HanjolumFieldCell x4;
    core__option__Option_11 x6;
    uint64_t x7;
    x3 = (uint16_t)x2;
    if (flow_following__is_arrival(x1)) {
        return x3;
    }
    x6 = flow_following__next_cell(x1, x2);
    switch (x6.tag) {
    case 1:
        x4 = x6.v1_f1;
        break;
    default:
        return (uint16_t)(UINT32_C(256) + (uint32_t)x3);
    }
    x7 = fields__FieldCell__as_1d_index(x4);
    return (uint16_t)(UINT32_C(256) + (uint32_t)(uint16_t)x7);
}

/* flow_following::first_trails */
static inline array_100_uint16_t flow_following__first_trails(const uint8_t *x1)
{
    array_100_uint16_t x2;
    uint64_t x3, x9;
    uint16_t x5;
    x2 = (array_100_uint16_t){ { 0 } };
    x3 = UINT64_C(0);
    while (x3 < UINT64_C(100)) {
        x5 = flow_following__first_trail(*(x1 + x3), x3);
        x9 = x3 * UINT64_C(2);
        *(uint16_t *)((uint8_t *)x2.at + x9) = x5;
        x3 = x3 + UINT64_C(1);
    }
    return x2;
}

/* flow_following::all_arrived */
static inline bool flow_following__all_arrived(const uint16_t *x1, uint16_t x2)
{
    uint16_t x3;
    bool x4;
    uint64_t x5, x8;
    const uint16_t *x6;
    const uint8_t *x10;
    x3 = (uint16_t)((uint32_t)x2 * UINT32_C(256));
    x4 = true;
    x5 = UINT64_C(0);
    while (x5 < UINT64_C(100)) {
        x8 = x5 * UINT64_C(2);
        x10 = part((const uint8_t *)x1, x8);
        x6 = (const uint16_t *)x10;
        x4 = x4 & (*x6 < x3);
        x5 = x5 + UINT64_C(1);
    }
    return x4;
}

/* flow_following::led_to */
static inline uint64_t flow_following__led_to(uint16_t x1)
{
    return (uint64_t)(uint16_t)((uint32_t)x1 % UINT32_C(256));
}

/* flow_following::doubled */
static inline array_100_uint16_t flow_following__doubled(const uint16_t *x1)
{
    array_100_uint16_t x2;
    uint64_t x3, x6, x11, x16;
    uint16_t x4, x10, x15;
    x2 = (array_100_uint16_t){ { 0 } };
    x3 = UINT64_C(0);
    while (x3 < UINT64_C(100)) {
        x6 = x3 * UINT64_C(2);
        x4 = *(const uint16_t *)((const uint8_t *)x1 + x6);
        x10 = (uint16_t)((uint32_t)(uint16_t)((uint32_t)x4 / UINT32_C(256)) * UINT32_C(256));
        x6 = flow_following__led_to(x4);
        x11 = x6 * UINT64_C(2);
        x15 = (uint16_t)((uint32_t)x10 + (uint32_t)*(const uint16_t *)((const uint8_t *)x1 + x11));
        x16 = x3 * UINT64_C(2);
        *(uint16_t *)((uint8_t *)x2.at + x16) = x15;
        x3 = x3 + UINT64_C(1);
    }
    return x2;
}

/* flow_following::told_moves */
static inline uint8_t flow_following__told_moves(uint16_t x1)
{
    uint16_t x2;
    x2 = (uint16_t)((uint32_t)x1 / UINT32_C(256));
    if (UINT16_C(99) < x2) {
        return UINT8_C(255);
    }
    return (uint8_t)x2;
}

/* flow_following::all_told */
static inline array_100_uint8_t flow_following__all_told(const uint16_t *x1)
{
    array_100_uint8_t x2;
    uint64_t x3, x6;
    uint8_t x5;
    x2 = (array_100_uint8_t){ { 0 } };
    x3 = UINT64_C(0);
    while (x3 < UINT64_C(100)) {
        x6 = x3 * UINT64_C(2);
        x5 = flow_following__told_moves(*(const uint16_t *)((const uint8_t *)x1 + x6));
        *(x2.at + x3) = x5;
        x3 = x3 + UINT64_C(1);
    }
    return x2;
}

/* flow_following::all_moves */
static inline array_100_uint8_t flow_following__all_moves(const uint8_t *x1)
{
    array_100_uint16_t x2, x4, x9;
    uint16_t x3;
    bool x6;
    x4 = flow_following__first_trails(x1);
    x2 = x4;
    x3 = UINT16_C(1);
    for (;;) {
        if (x3 < UINT16_C(100)) {
            x6 = flow_following__all_arrived(x2.at, x3);
            if (!!x6) {
                break;
            }
        } else {
            break;
        }
        x9 = flow_following__doubled(x2.at);
        x2 = x9;
        x3 = (uint16_t)((uint32_t)x3 + (uint32_t)x3);
    }
    return flow_following__all_told(x2.at);
}

/* flow_following::arrivals */
static inline HanjolumArrivals flow_following__arrivals(slice_const_uint8_t x1)
{
    HanjolumArrivals x0;
    const uint8_t *x2;
    core__option__Option_2 x3;
    uint8_t x4;
    array_100_uint8_t x6, x7;
    x3 = core__slice__arrays__slice_T__as_array(x1);
    switch (x3.tag) {
    case 1:
        x2 = x3.v1_f1;
        break;
    default:
        x4 = refusals__Refusal__number((refusals__Refusal){ .tag = UINT8_C(1) });
        x6 = (array_100_uint8_t){ { 0 } };
        x0.number = x4;
        memcpy(x0.moves, x6.at, sizeof x0.moves);
        return x0;
    }
    x7 = flow_following__all_moves(x2);
    x0.number = UINT8_C(0);
    memcpy(x0.moves, x7.at, sizeof x0.moves);
    return x0;
}

/* hanjolum::hanjolum_arrivals */
HanjolumArrivals hanjolum_arrivals(const uint8_t *sheet, size_t sheet_length)
{
    slice_const_uint8_t x1 = { sheet, sheet_length };
    return flow_following__arrivals(x1);
}

/* core::result::ResultFromResidualErrResidual::from_residual at bounds_told::Bounds, refusals::Refusal, refusals::Refusal */
NOT_IN_LINE core__result__Result_2 core__result__ResultFromResidualErrResidual__from_residual_2(core__result__ErrResidual x1)
{
    refusals__Refusal x2;
    x2 = core__convert__AnyFrom__from(x1.f0);
    return (core__result__Result_2){ .tag = UINT8_C(1), .v1_f1 = x2 };
}

/* bounds::is_no_range */
static inline bool bounds__is_no_range(uint8_t x1, uint8_t x2)
{
    bool x3, x4;
    x3 = x2 < x1;
    if (!x3) {
        x4 = x1 == UINT8_C(255);
        x3 = x4 != (x2 == UINT8_C(255));
    }
    return x3;
}

/* bounds::has_no_range */
static inline bool bounds__has_no_range(const uint8_t *x1, const uint8_t *x2)
{
    uint64_t x3;
    uint8_t x8;
    x3 = UINT64_C(0);
    while (x3 < UINT64_C(100)) {
        x8 = *(x1 + x3);
        if (bounds__is_no_range(x8, *(x2 + x3))) {
            return true;
        }
        x3 = x3 + UINT64_C(1);
    }
    return false;
}

/* integration_build::build_without_positions */
NOT_IN_LINE HanjolumIntegrationField integration_build__build_without_positions(const uint8_t *x1, HanjolumIntegrationField x2)
{
    HanjolumIntegrationField x3;
    x3 = x2;
    integration_build__build_cells(x1, &x3);
    return x3;
}

/* integration_target::build_window */
NOT_IN_LINE HanjolumIntegrationField integration_target__build_window(const uint8_t *x1, fields__CellList x2)
{
    HanjolumIntegrationField x3;
    x3 = integration_init__start_at(x1, x2);
    return integration_build__build_without_positions(x1, x3);
}

/* bounds_sure::costs_of */
static inline array_100_uint32_t bounds_sure__costs_of(const uint32_t *x1)
{
    array_100_uint32_t x2;
    uint64_t x3, x6, x10;
    uint32_t x5;
    x2 = (array_100_uint32_t){ { 0 } };
    x3 = UINT64_C(0);
    while (x3 < UINT64_C(100)) {
        x6 = x3 * UINT64_C(4);
        x5 = integration_bits__low_bits(*(const uint32_t *)((const uint8_t *)x1 + x6));
        x10 = x3 * UINT64_C(4);
        *(uint32_t *)((uint8_t *)x2.at + x10) = x5;
        x3 = x3 + UINT64_C(1);
    }
    return x2;
}

/* fields::CellList::none at 8 */
static inline fields__CellList_3 fields__CellList__none_3(void)
{
    fields__CellList_3 x0;
    array_8_uint8_t x1;
    x1 = (array_8_uint8_t){ { 0 } };
    memcpy(x0.f0, x1.at, sizeof x0.f0);
    x0.f1 = UINT64_C(0);
    return x0;
}

/* bounds_sure::is_passed_over */
static inline bool bounds_sure__is_passed_over(const uint32_t *x1, HanjolumFieldCell x2, HanjolumFieldCell x3)
{
    uint32_t x5;
    uint64_t x9;
    x9 = ((x3.row * UINT64_C(10)) + x3.column) * UINT64_C(4);
    if (integration_bits__is_impassable(*(const uint32_t *)((const uint8_t *)x1 + x9))) {
        return true;
    }
    x9 = ((x2.row * UINT64_C(10)) + x3.column) * UINT64_C(4);
    x5 = *(const uint32_t *)((const uint8_t *)x1 + x9);
    x9 = ((x3.row * UINT64_C(10)) + x2.column) * UINT64_C(4);
    return integration_bits__passes_wall(x2, x3, x5, *(const uint32_t *)((const uint8_t *)x1 + x9));
}

/* bounds_sure::permitted_towards */
static inline core__option__Option_8 bounds_sure__permitted_towards(const uint32_t *x1, uint64_t x2, utilities__CompassDir x3)
{
    HanjolumFieldCell x4, x5;
    core__option__Option_11 x6;
    uint64_t x8;
    x4 = fields__FieldCell__from_index(x2);
    x6 = fields__FieldCell__get_in_compass_direction(x4, x3);
    switch (x6.tag) {
    case 1:
        x5 = x6.v1_f1;
        break;
    default:
        return (core__option__Option_8){ .tag = UINT8_C(0) };
    }
    if (bounds_sure__is_passed_over(x1, x4, x5)) {
        return (core__option__Option_8){ .tag = UINT8_C(0) };
    }
    x8 = fields__FieldCell__as_1d_index(x5);
    return (core__option__Option_8){ .tag = UINT8_C(1), .v1_f1 = (uint8_t)x8 };
}

/* fields::CellList::push at 8 */
static inline void fields__CellList__push_3(fields__CellList_3 *x1, uint8_t x2)
{
    uint64_t x3;
    x3 = x1->f1;
    *(x1->f0 + x3) = x2;
    x3 = x1->f1;
    x1->f1 = x3 + UINT64_C(1);
}

/* bounds_sure::permitted_from */
static inline bounds_sure__Neighbours bounds_sure__permitted_from(const uint32_t *x1, uint64_t x2)
{
    fields__CellList_3 x3;
    array_8_utilities__CompassDir x4, x9;
    uint64_t x5;
    utilities__CompassDir x6, x10, x11, x12, x13, x14, x15, x16, x17;
    uint8_t x7;
    core__option__Option_8 x22;
    x3 = fields__CellList__none_3();
    x10 = (utilities__CompassDir){ .tag = UINT8_C(0) };
    x11 = (utilities__CompassDir){ .tag = UINT8_C(1) };
    x12 = (utilities__CompassDir){ .tag = UINT8_C(2) };
    x13 = (utilities__CompassDir){ .tag = UINT8_C(3) };
    x14 = (utilities__CompassDir){ .tag = UINT8_C(4) };
    x15 = (utilities__CompassDir){ .tag = UINT8_C(5) };
    x16 = (utilities__CompassDir){ .tag = UINT8_C(6) };
    x17 = (utilities__CompassDir){ .tag = UINT8_C(7) };
    x9 = (array_8_utilities__CompassDir){ { x10, x11, x12, x13, x14, x15, x16, x17 } };
    x4 = x9;
    x5 = UINT64_C(0);
    UNROLL
    while (x5 < UINT64_C(8)) {
        x6 = *(const utilities__CompassDir *)((const uint8_t *)x4.at + x5);
        x22 = bounds_sure__permitted_towards(x1, x2, x6);
        switch (x22.tag) {
        case 1:
            x7 = x22.v1_f1;
            fields__CellList__push_3(&x3, x7);
            break;
        default:
            break;
        }
        x5 = x5 + UINT64_C(1);
    }
    return (bounds_sure__Neighbours){ .f0 = x3 };
}

/* bounds_sure::Neighbours::has_window */
static inline bool bounds_sure__Neighbours__has_window(bounds_sure__Neighbours x1, const uint32_t *x2)
{
    bounds_sure__Neighbours x3;
    slice_const_uint8_t x4;
    uint64_t x5, x8, x10, x14, x16;
    const uint8_t *x6, *x12;
    x3 = x1;
    x8 = x3.f0.f1;
    x4 = (slice_const_uint8_t){ .at = x3.f0.f0, .length = x8 };
    x5 = UINT64_C(0);
    x10 = x4.length;
    while (x5 < x10) {
        x12 = part(x4.at, x5);
        x6 = x12;
        x14 = core__convert__UsizeFromU8__from(*x6);
        x16 = x14 * UINT64_C(4);
        if (integration_bits__is_portal(*(const uint32_t *)((const uint8_t *)x2 + x16))) {
            return true;
        }
        x5 = x5 + UINT64_C(1);
    }
    return false;
}

/* bounds_sure::Neighbours::is_below_others */
static inline bool bounds_sure__Neighbours__is_below_others(
    bounds_sure__Neighbours x1, const uint32_t *x2, const uint32_t *x3, uint8_t x4)
{
    bounds_sure__Neighbours x5;
    uint32_t x6;
    slice_const_uint8_t x7;
    uint64_t x8, x10, x11, x17, x22, x24;
    const uint8_t *x9, *x19;
    x5 = x1;
    x10 = core__convert__UsizeFromU8__from(x4);
    x11 = x10 * UINT64_C(4);
    x6 = *(const uint32_t *)((const uint8_t *)x3 + x11);
    x10 = x5.f0.f1;
    x7 = (slice_const_uint8_t){ .at = x5.f0.f0, .length = x10 };
    x8 = UINT64_C(0);
    x17 = x7.length;
    while (x8 < x17) {
        x19 = part(x7.at, x8);
        x9 = x19;
        if (*x9 != x4) {
            x22 = core__convert__UsizeFromU8__from(*x9);
            x24 = x22 * UINT64_C(4);
            if (*(const uint32_t *)((const uint8_t *)x2 + x24) <= x6) {
                return false;
            }
        }
        x8 = x8 + UINT64_C(1);
    }
    return true;
}

/* bounds_sure::Neighbours::has_least */
static inline bool bounds_sure__Neighbours__has_least(bounds_sure__Neighbours x1, const uint32_t *x2, const uint32_t *x3)
{
    bounds_sure__Neighbours x4, x21;
    slice_const_uint8_t x5;
    uint64_t x6, x9, x11, x15, x17;
    const uint8_t *x7, *x13;
    x4 = x1;
    x9 = x4.f0.f1;
    x5 = (slice_const_uint8_t){ .at = x4.f0.f0, .length = x9 };
    x6 = UINT64_C(0);
    x11 = x5.length;
    while (x6 < x11) {
        x13 = part(x5.at, x6);
        x7 = x13;
        x15 = core__convert__UsizeFromU8__from(*x7);
        x17 = x15 * UINT64_C(4);
        if (*(const uint32_t *)((const uint8_t *)x3 + x17) < UINT32_C(65535)) {
            x21 = x4;
            if (bounds_sure__Neighbours__is_below_others(x21, x2, x3, *x7)) {
                return true;
            }
        }
        x6 = x6 + UINT64_C(1);
    }
    return false;
}

/* bounds_sure::is_sure */
static inline bool bounds_sure__is_sure(const uint32_t *x1, const uint32_t *x2, const uint32_t *x3, uint64_t x4)
{
    uint32_t x5;
    bounds_sure__Neighbours x6;
    uint64_t x7;
    bool x13;
    x7 = x4 * UINT64_C(4);
    x5 = *(const uint32_t *)((const uint8_t *)x1 + x7);
    if (integration_bits__is_impassable(x5)) {
        return false;
    }
    if (integration_bits__is_portal(x5)) {
        return false;
    }
    x6 = bounds_sure__permitted_from(x1, x4);
    x13 = bounds_sure__Neighbours__has_window(x6, x1);
    if (!x13) {
        x13 = bounds_sure__Neighbours__has_least(x6, x2, x3);
    }
    return x13;
}

/* bounds_sure::sure_cells */
static inline array_100_bool bounds_sure__sure_cells(const uint32_t *x1, const uint32_t *x2, const uint32_t *x3)
{
    array_100_bool x4;
    uint64_t x5;
    bool x6;
    for (uint32_t k1 = 0; k1 < 100; k1++) {
        x4.at[k1] = false;
    }
    x5 = UINT64_C(0);
    for (;;) {
        x6 = x5 < UINT64_C(100);
        if (!x6) {
            break;
        }
        x6 = bounds_sure__is_sure(x1, x2, x3, x5);
        *(bool *)((uint8_t *)x4.at + x5) = x6;
        x5 = x5 + UINT64_C(1);
    }
    return x4;
}

/* bounds::run */
NOT_IN_LINE HanjolumBounds bounds__run(const uint8_t *x1, const uint8_t *x2, fields__CellList x3)
{
    HanjolumBounds x0;
    HanjolumIntegrationField x4, x6;
    array_100_uint32_t x5, x7, x10, x16;
    array_100_bool x8;
    const uint32_t *x13, *x14;
    x4 = integration_target__build_window(x1, x3);
    x10 = bounds_sure__costs_of(x4.field);
    x5 = x10;
    x6 = integration_target__build_window(x2, x3);
    x10 = bounds_sure__costs_of(x6.field);
    x7 = x10;
    x13 = x4.field;
    x14 = x5.at;
    x8 = bounds_sure__sure_cells(x13, x14, x7.at);
    x10 = x5;
    x16 = x7;
    x0.number = UINT8_C(0);
    memcpy(x0.least, x10.at, sizeof x0.least);
    memcpy(x0.greatest, x16.at, sizeof x0.greatest);
    memcpy(x0.sure, x8.at, sizeof x0.sure);
    return x0;
}

/* bounds::bounds_found */
NOT_IN_LINE core__result__Result_2 bounds__bounds_found(slice_const_uint8_t x1, slice_const_uint8_t x2, slice_const_uint8_t x3)
{
    const uint8_t *x4, *x5;
    route__Target x6;
    fields__CellList x11;
    core__option__Option_2 x12, x14;
    route__RouteStep x16;
    core__ops__ControlFlow x17, x21;
    core__result__Result x18;
    HanjolumBounds x27;
    x12 = core__slice__arrays__slice_T__as_array(x1);
    switch (x12.tag) {
    case 1:
        x4 = x12.v1_f1;
        break;
    default:
        return (core__result__Result_2){ .tag = UINT8_C(1), .v1_f1 = (refusals__Refusal){ .tag = UINT8_C(0) } };
    }
    x14 = core__slice__arrays__slice_T__as_array(x2);
    switch (x14.tag) {
    case 1:
        x5 = x14.v1_f1;
        break;
    default:
        return (core__result__Result_2){ .tag = UINT8_C(1), .v1_f1 = (refusals__Refusal){ .tag = UINT8_C(0) } };
    }
    x16 = route__RouteStep__new(x3);
    x6 = route__RouteStep__as_target(x16);
    x18 = step_numbers__number_with_target((slice_const_uint8_t){ .at = x4, .length = UINT64_C(100) }, x3, x6);
    x17 = core__result__ResultTry__branch(x18);
    switch (x17.tag) {
    case 0:
        break;
    default:
        return core__result__ResultFromResidualErrResidual__from_residual_2(x17.v1_f1);
    }
    x18 = step_numbers__number_with_target((slice_const_uint8_t){ .at = x5, .length = UINT64_C(100) }, x3, x6);
    x21 = core__result__ResultTry__branch(x18);
    switch (x21.tag) {
    case 0:
        break;
    default:
        return core__result__ResultFromResidualErrResidual__from_residual_2(x21.v1_f1);
    }
    switch (x6.tag) {
    case 1:
        x11 = x6.v1_f1;
        break;
    default:
        return (core__result__Result_2){ .tag = UINT8_C(1), .v1_f1 = (refusals__Refusal){ .tag = UINT8_C(17) } };
    }
    if (bounds__has_no_range(x4, x5)) {
        return (core__result__Result_2){ .tag = UINT8_C(1), .v1_f1 = (refusals__Refusal){ .tag = UINT8_C(17) } };
    }
    x27 = bounds__run(x4, x5, x11);
    return (core__result__Result_2){ .tag = UINT8_C(0), .v0_f1 = x27 };
}

/* bounds::refused */
NOT_IN_LINE HanjolumBounds bounds__refused(uint8_t x1)
{
    HanjolumBounds x0;
    array_100_uint32_t x2, x3;
    array_100_bool x4;
    x2 = (array_100_uint32_t){ { 0 } };
    x3 = (array_100_uint32_t){ { 0 } };
    for (uint32_t k1 = 0; k1 < 100; k1++) {
        x4.at[k1] = false;
    }
    x0.number = x1;
    memcpy(x0.least, x2.at, sizeof x0.least);
    memcpy(x0.greatest, x3.at, sizeof x0.greatest);
    memcpy(x0.sure, x4.at, sizeof x0.sure);
    return x0;
}

/* bounds::bounds */
NOT_IN_LINE HanjolumBounds bounds__bounds(slice_const_uint8_t x1, slice_const_uint8_t x2, slice_const_uint8_t x3)
{
    core__result__Result_2 x6;
    HanjolumBounds x7;
    uint8_t x8;
    x6 = bounds__bounds_found(x1, x2, x3);
    switch (x6.tag) {
    case 0:
        x7 = x6.v0_f1;
        break;
    default:
        x8 = refusals__Refusal__number(x6.v1_f1);
        x7 = bounds__refused(x8);
        break;
    }
    return x7;
}

/* hanjolum::hanjolum_bounds */
HanjolumBounds hanjolum_bounds(
    const uint8_t *low, size_t low_length, const uint8_t *high, size_t high_length, const uint8_t *step,
    size_t step_length)
{
    slice_const_uint8_t x1 = { low, low_length };
    slice_const_uint8_t x2 = { high, high_length };
    slice_const_uint8_t x3 = { step, step_length };
    return bounds__bounds(x1, x2, x3);
}

/* window_costs::refused */
static inline HanjolumWindowCosts window_costs__refused(uint8_t x1)
{
    HanjolumWindowCosts x0;
    array_8_uint32_t x2;
    HanjolumWindowRow x3;
    array_8_HanjolumWindowRow x4;
    x2 = (array_8_uint32_t){ { 0 } };
    memcpy(x3.costs, x2.at, sizeof x3.costs);
    for (uint32_t k1 = 0; k1 < 8; k1++) {
        x4.at[k1] = x3;
    }
    x0.number = x1;
    memcpy(x0.rows, x4.at, sizeof x0.rows);
    return x0;
}

/* step_numbers::step_number_on */
static inline core__result__Result step_numbers__step_number_on(slice_const_uint8_t x1, slice_const_uint8_t x2)
{
    route__Target x3;
    route__RouteStep x4;
    x4 = route__RouteStep__new(x2);
    x3 = route__RouteStep__as_target(x4);
    return step_numbers__number_with_target(x1, x2, x3);
}

/* window_steps::window_step_number */
static inline core__result__Result window_steps__window_step_number(slice_const_uint8_t x1, uint8_t x2, slice_const_uint8_t x3)
{
    core__ops__ControlFlow x6;
    core__result__Result x7;
    x7 = step_numbers__step_number_on(x1, x3);
    x6 = core__result__ResultTry__branch(x7);
    switch (x6.tag) {
    case 0:
        break;
    default:
        return core__result__ResultFromResidualErrResidual__from_residual(x6.v1_f1);
    }
    if (!(*(x3.at + UINT64_C(2)) != UINT8_C(1))) {
        if (!(*(x3.at + UINT64_C(0)) != x2)) {
            goto out2;
        }
    }
    return (core__result__Result){ .tag = UINT8_C(1), .v1_f1 = (refusals__Refusal){ .tag = UINT8_C(19) } };
    goto out1;
    out2:;
    out1:;
    return (core__result__Result){ .tag = UINT8_C(0) };
}

/* window_steps::each_window_step */
static inline core__result__Result window_steps__each_window_step(slice_const_uint8_t x1, uint8_t x2, slice_const_uint8_t x3)
{
    uint64_t x4, x5, x8, x13, x15;
    core__ops__ControlFlow x11;
    core__result__Result x12;
    const uint8_t *x14;
    x4 = UINT64_C(0);
    x8 = x3.length / UINT64_C(8);
    while (x4 < x8) {
        x5 = x4 * UINT64_C(8);
        x13 = x5 + UINT64_C(8);
        x14 = part(x3.at, x5);
        x15 = x13 - x5;
        x12 = window_steps__window_step_number(x1, x2, (slice_const_uint8_t){ .at = x14, .length = x15 });
        x11 = core__result__ResultTry__branch(x12);
        switch (x11.tag) {
        case 0:
            break;
        default:
            return core__result__ResultFromResidualErrResidual__from_residual(x11.v1_f1);
        }
        x4 = x4 + UINT64_C(1);
    }
    return (core__result__Result){ .tag = UINT8_C(0) };
}

/* window_steps::window_costs_number */
static inline core__result__Result window_steps__window_costs_number(slice_const_uint8_t x1, slice_const_uint8_t x2)
{
    uint64_t x3;
    if (x1.length != UINT64_C(100)) {
        return (core__result__Result){ .tag = UINT8_C(1), .v1_f1 = (refusals__Refusal){ .tag = UINT8_C(0) } };
    }
    if ((x2.length % UINT64_C(8)) != UINT64_C(0)) {
        return (core__result__Result){ .tag = UINT8_C(1), .v1_f1 = (refusals__Refusal){ .tag = UINT8_C(2) } };
    }
    x3 = x2.length / UINT64_C(8);
    if (!(x3 < UINT64_C(2))) {
        if (!(UINT64_C(8) < x3)) {
            goto out2;
        }
    }
    return (core__result__Result){ .tag = UINT8_C(1), .v1_f1 = (refusals__Refusal){ .tag = UINT8_C(18) } };
    goto out1;
    out2:;
    out1:;
    return window_steps__each_window_step(x1, *(x2.at + UINT64_C(0)), x2);
}

/* window_columns::target_at */
static inline route__Target window_columns__target_at(slice_const_uint8_t x1, uint64_t x2)
{
    uint64_t x3, x5, x7;
    route__RouteStep x4;
    const uint8_t *x6;
    x3 = x2 * UINT64_C(8);
    x5 = x3 + UINT64_C(8);
    x6 = part(x1.at, x3);
    x7 = x5 - x3;
    x4 = route__RouteStep__new((slice_const_uint8_t){ .at = x6, .length = x7 });
    return route__RouteStep__as_target(x4);
}

/* core::int::u32::min */
IN_LINE uint32_t core__int__u32__min(uint32_t x1, uint32_t x2)
{
    return choose_uint32_t(x2 < x1, x2, x1);
}

/* window_columns::least_built */
static inline uint32_t window_columns__least_built(const uint32_t *x1, fields__CellList x2)
{
    fields__CellList x3;
    uint32_t x4, x8;
    uint64_t x5, x6, x9, x13;
    x3 = x2;
    x4 = UINT32_C(65535);
    x5 = UINT64_C(0);
    x6 = x3.f1;
    while (x5 < x6) {
        x9 = core__convert__UsizeFromU8__from(*(x3.f0 + x5));
        x13 = x9 * UINT64_C(4);
        x8 = integration_bits__low_bits(*(const uint32_t *)((const uint8_t *)x1 + x13));
        x4 = core__int__u32__min(x4, x8);
        x5 = x5 + UINT64_C(1);
    }
    return x4;
}

/* window_columns::least_from */
static inline uint32_t window_columns__least_from(const uint32_t *x1, slice_const_uint8_t x2, uint64_t x3)
{
    fields__CellList x7;
    route__Target x8;
    if ((x2.length / UINT64_C(8)) <= x3) {
        return UINT32_C(65535);
    }
    x8 = window_columns__target_at(x2, x3);
    x7 = route__Target__window(x8);
    return window_columns__least_built(x1, x7);
}

/* window_columns::fn::column_of::from_fn */
IN_LINE uint32_t window_columns__fn__column_of__from_fn(window_columns__fn__column_of__from_fn_Self *x1, uint64_t x2)
{
    const uint32_t *x3;
    x3 = x1->f0;
    return window_columns__least_from(x3, x1->f1, x2);
}

/* window_columns::fn::column_of::from_fn+FnMut::call_mut */
IN_LINE uint32_t window_columns__fn__column_of__from_fn_FnMut__call_mut(
    window_columns__fn__column_of__from_fn_Self *x1, uint64_t x2)
{
    return window_columns__fn__column_of__from_fn(x1, x2);
}

/* core::array::CallsElements::at at u32, window_columns::fn::column_of::from_fn+Self<&[u32; 100], &[u8]> */
IN_LINE uint32_t core__array__CallsElements__at_2(core__array__Calls_2 *x1, uint64_t x2)
{
    return window_columns__fn__column_of__from_fn_FnMut__call_mut(&x1->f0, x2);
}

/* core::array::array_from at u32, 8, core::array::Calls<window_columns::fn::column_of::from_fn+Self<&[u32; 100], &[u8]>> */
IN_LINE array_8_uint32_t core__array__array_from_3(core__array__Calls_2 *x1)
{
    array_8_uint32_t x2;
    uint64_t x3, x7;
    uint32_t x6;
    x3 = UINT64_C(0);
    while (x3 < UINT64_C(8)) {
        x6 = core__array__CallsElements__at_2(x1, x3);
        x7 = x3 * UINT64_C(4);
        *(uint32_t *)((uint8_t *)x2.at + x7) = x6;
        x3 = x3 + UINT64_C(1);
    }
    return x2;
}

/* core::array::from_fn at u32, 8, window_columns::fn::column_of::from_fn+Self<&[u32; 100], &[u8]> */
IN_LINE array_8_uint32_t core__array__from_fn_2(window_columns__fn__column_of__from_fn_Self x1)
{
    core__array__Calls_2 x4;
    x4 = (core__array__Calls_2){ .f0 = x1, .f1 = UINT64_C(8) };
    return core__array__array_from_3(&x4);
}

/* window_columns::column_of */
static inline array_8_uint32_t window_columns__column_of(const uint32_t *x1, slice_const_uint8_t x2)
{
    const uint32_t *x3;
    window_columns__fn__column_of__from_fn_Self x6;
    x3 = x1;
    x6 = (window_columns__fn__column_of__from_fn_Self){ .f0 = x3, .f1 = (slice_const_uint8_t){ .at = x2.at, .length = x2.length } };
    return core__array__from_fn_2(x6);
}

/* window_costs::column_at */
static inline array_8_uint32_t window_costs__column_at(const uint8_t *x1, slice_const_uint8_t x2, uint64_t x3)
{
    array_8_uint32_t x0;
    fields__CellList x4;
    HanjolumIntegrationField x5;
    route__Target x9;
    if ((x2.length / UINT64_C(8)) <= x3) {
        for (uint32_t k1 = 0; k1 < 8; k1++) {
            x0.at[k1] = UINT32_C(65535);
        }
        return x0;
    }
    x9 = window_columns__target_at(x2, x3);
    x4 = route__Target__window(x9);
    x5 = integration_target__build_window(x1, x4);
    x0 = window_columns__column_of(x5.field, x2);
    return x0;
}

/* window_columns::row_of */
static inline array_8_uint32_t window_columns__row_of(array_64_uint32_t x1, uint64_t x2)
{
    array_64_uint32_t x3;
    array_8_uint32_t x4;
    uint64_t x5, x7, x10, x14;
    const uint8_t *x9;
    uint32_t x13;
    x3 = x1;
    x4 = (array_8_uint32_t){ { 0 } };
    x5 = UINT64_C(0);
    UNROLL
    while (x5 < UINT64_C(8)) {
        x7 = x5 * UINT64_C(32);
        x9 = (const uint8_t *)x3.at + x7;
        x10 = x2 * UINT64_C(4);
        x13 = *(const uint32_t *)((const uint8_t *)(const uint32_t *)x9 + x10);
        x14 = x5 * UINT64_C(4);
        *(uint32_t *)((uint8_t *)x4.at + x14) = x13;
        x5 = x5 + UINT64_C(1);
    }
    return x4;
}

/* window_columns::square_of */
static inline array_64_uint32_t window_columns__square_of(array_64_uint32_t x1)
{
    array_64_uint32_t x2;
    uint64_t x3, x7;
    array_8_uint32_t x4, x6;
    x4 = (array_8_uint32_t){ { 0 } };
    for (uint32_t k1 = 0; k1 < 8; k1++) {
        memcpy(x2.at + k1 * 8, x4.at, 8 * sizeof x2.at[0]);
    }
    x3 = UINT64_C(0);
    while (x3 < UINT64_C(8)) {
        x6 = window_columns__row_of(x1, x3);
        x7 = x3 * UINT64_C(32);
        memcpy((uint32_t *)((uint8_t *)x2.at + x7), x6.at, 8 * sizeof(uint32_t));
        x3 = x3 + UINT64_C(1);
    }
    return x2;
}

/* window_costs::window_square */
static inline array_64_uint32_t window_costs__window_square(const uint8_t *x1, slice_const_uint8_t x2)
{
    array_64_uint32_t x3, x11;
    uint64_t x4, x8;
    array_8_uint32_t x5, x7;
    x5 = (array_8_uint32_t){ { 0 } };
    for (uint32_t k1 = 0; k1 < 8; k1++) {
        memcpy(x3.at + k1 * 8, x5.at, 8 * sizeof x3.at[0]);
    }
    x4 = UINT64_C(0);
    while (x4 < UINT64_C(8)) {
        x7 = window_costs__column_at(x1, x2, x4);
        x8 = x4 * UINT64_C(32);
        memcpy((uint32_t *)((uint8_t *)x3.at + x8), x7.at, 8 * sizeof(uint32_t));
        x4 = x4 + UINT64_C(1);
    }
    x11 = x3;
    return window_columns__square_of(x11);
}

/* window_columns::rows_of */
static inline array_8_HanjolumWindowRow window_columns__rows_of(array_64_uint32_t x1)
{
    array_64_uint32_t x2;
    array_8_HanjolumWindowRow x3;
    uint64_t x4, x8, x13;
    array_8_uint32_t x5, x11;
    HanjolumWindowRow x6, x12;
    x2 = x1;
    x5 = (array_8_uint32_t){ { 0 } };
    memcpy(x6.costs, x5.at, sizeof x6.costs);
    for (uint32_t k1 = 0; k1 < 8; k1++) {
        x3.at[k1] = x6;
    }
    x4 = UINT64_C(0);
    UNROLL
    while (x4 < UINT64_C(8)) {
        x8 = x4 * UINT64_C(32);
        memcpy(x11.at, (const uint32_t *)((const uint8_t *)x2.at + x8), sizeof x11.at);
        memcpy(x12.costs, x11.at, sizeof x12.costs);
        x13 = x4 * UINT64_C(32);
        *(HanjolumWindowRow *)((uint8_t *)x3.at + x13) = x12;
        x4 = x4 + UINT64_C(1);
    }
    return x3;
}

/* window_costs::window_costs */
static inline HanjolumWindowCosts window_costs__window_costs(slice_const_uint8_t x1, slice_const_uint8_t x2)
{
    const uint8_t *x3;
    core__result__Result_5 x5;
    uint8_t x6, x12;
    core__result__Result x8;
    HanjolumWindowCosts x9;
    array_8_HanjolumWindowRow x10;
    array_64_uint32_t x11;
    x5 = core__convert__lends__RefArrayTryFromRefSlice__try_from(x1);
    switch (x5.tag) {
    case 0:
        x3 = x5.v0_f1;
        break;
    default:
        x6 = refusals__Refusal__number((refusals__Refusal){ .tag = UINT8_C(0) });
        return window_costs__refused(x6);
    }
    x8 = window_steps__window_costs_number(x1, x2);
    switch (x8.tag) {
    case 0:
        x11 = window_costs__window_square(x3, x2);
        x10 = window_columns__rows_of(x11);
        x9.number = UINT8_C(0);
        memcpy(x9.rows, x10.at, sizeof x9.rows);
        break;
    default:
        x12 = refusals__Refusal__number(x8.v1_f1);
        x9 = window_costs__refused(x12);
        break;
    }
    return x9;
}

/* hanjolum::hanjolum_window_costs */
HanjolumWindowCosts hanjolum_window_costs(const uint8_t *costs, size_t costs_length, const uint8_t *steps, size_t steps_length)
{
    slice_const_uint8_t x1 = { costs, costs_length };
    slice_const_uint8_t x2 = { steps, steps_length };
    return window_costs__window_costs(x1, x2);
}

/* tour::refused */
static inline HanjolumWindowTour tour__refused(uint8_t x1)
{
    HanjolumWindowTour x0;
    array_8_uint8_t x2;
    x2 = (array_8_uint8_t){ { 0 } };
    x0.number = x1;
    x0.found = false;
    memcpy(x0.order, x2.at, sizeof x0.order);
    x0.sum = UINT32_C(0);
    x0.tried = UINT32_C(0);
    x0.least = UINT32_C(0);
    return x0;
}

/* core::convert::UsizeFromU16::from */
IN_LINE uint64_t core__convert__UsizeFromU16__from(uint16_t x1)
{
    return (uint64_t)x1;
}

/* tour_ranking::factorial */
static inline uint64_t tour_ranking__factorial(uint64_t x1)
{
    uint64_t x2, x3;
    x2 = UINT64_C(1);
    x3 = UINT64_C(0);
    while (x3 < x1) {
        x2 = x2 * (x3 + UINT64_C(1));
        x3 = x3 + UINT64_C(1);
    }
    return x2;
}

/* core::int::usize::min */
IN_LINE uint64_t core__int__usize__min(uint64_t x1, uint64_t x2)
{
    return choose_uint64_t(x2 < x1, x2, x1);
}

/* tour_search::tried_count */
static inline uint64_t tour_search__tried_count(uint64_t x1, uint16_t x2)
{
    uint64_t x3, x4;
    x3 = core__convert__UsizeFromU16__from(x2);
    x4 = tour_ranking__factorial(x1 - UINT64_C(1));
    return core__int__usize__min(x3, x4);
}

/* tour_ranking::first_order */
static inline array_8_uint8_t tour_ranking__first_order(uint64_t x1)
{
    array_8_uint8_t x2;
    uint64_t x3;
    uint8_t x5;
    x2 = (array_8_uint8_t){ { 0 } };
    x3 = UINT64_C(0);
    while (x3 < x1) {
        x5 = (uint8_t)x3;
        *(x2.at + x3) = x5;
        x3 = x3 + UINT64_C(1);
    }
    return x2;
}

/* tour_search::move_weight */
static inline uint32_t tour_search__move_weight(const uint32_t *x1, const uint8_t *x2, uint64_t x3)
{
    uint64_t x4, x5, x7, x15;
    uint32_t x6;
    const uint8_t *x14;
    x7 = x3 - UINT64_C(1);
    x4 = core__convert__UsizeFromU8__from(*(x2 + x7));
    x5 = core__convert__UsizeFromU8__from(*(x2 + x3));
    x7 = x4 * UINT64_C(32);
    x14 = (const uint8_t *)x1 + x7;
    x15 = x5 * UINT64_C(4);
    x6 = *(const uint32_t *)((const uint8_t *)(const uint32_t *)x14 + x15);
    return choose_uint32_t(x6 == UINT32_C(65535), UINT32_C(524288), x6);
}

/* tour_search::add_moves */
static inline uint32_t tour_search__add_moves(const uint32_t *x1, const uint8_t *x2, uint64_t x3, uint64_t x4, uint32_t *x5)
{
    uint32_t x6, x14;
    uint64_t x7, x9, x15;
    x9 = (x4 - UINT64_C(1)) * UINT64_C(4);
    x6 = *(const uint32_t *)((const uint8_t *)x5 + x9);
    x7 = x4;
    while (x7 < x3) {
        x14 = tour_search__move_weight(x1, x2, x7);
        x6 = x6 + x14;
        x15 = x7 * UINT64_C(4);
        *(uint32_t *)((uint8_t *)x5 + x15) = x6;
        x7 = x7 + UINT64_C(1);
    }
    return x6;
}

/* tour_search::fn::lowest::map_or */
IN_LINE uint32_t tour_search__fn__lowest__map_or(tour_sums__Tour x1)
{
    return x1.f1;
}

/* tour_search::fn::lowest::map_or+FnOnce::call_once */
IN_LINE uint32_t tour_search__fn__lowest__map_or_FnOnce__call_once(tour_sums__Tour x1)
{
    return tour_search__fn__lowest__map_or(x1);
}

/* core::option::Option::map_or at tour_sums::Tour, u32, tour_search::fn::lowest::map_or+Self */
IN_LINE uint32_t core__option__Option__map_or(core__option__Option_6 x1, uint32_t x2)
{
    uint32_t x5;
    switch (x1.tag) {
    case 1:
        x5 = tour_search__fn__lowest__map_or_FnOnce__call_once(x1.v1_f1);
        break;
    default:
        x5 = x2;
        break;
    }
    return x5;
}

/* tour_search::lowest */
static inline uint32_t tour_search__lowest(core__option__Option_6 x1)
{
    return core__option__Option__map_or(x1, UINT32_C(524288));
}

/* tour_search::taken */
NOT_IN_LINE core__option__Option_6 tour_search__taken(const uint8_t *x1, uint32_t x2)
{
    array_8_uint8_t x3;
    tour_sums__Tour x4;
    memcpy(x3.at, x1, sizeof x3.at);
    memcpy(x4.f0, x3.at, sizeof x4.f0);
    x4.f1 = x2;
    return (core__option__Option_6){ .tag = UINT8_C(1), .v1_f1 = x4 };
}

/* core::iter::base::Iterator::rev at core::iter::ranges::Range<u64>, u64 */
IN_LINE core__iter__adapters__Rev core__iter__base__Iterator__rev(core__iter__ranges__Range x1)
{
    return (core__iter__adapters__Rev){ .f0 = x1 };
}

/* core::iter::steps::UsizeStep::below */
IN_LINE bool core__iter__steps__UsizeStep__below(uint64_t x1, uint64_t x2)
{
    return x1 < x2;
}

/* core::iter::steps::UsizeStep::backward */
IN_LINE uint64_t core__iter__steps__UsizeStep__backward(uint64_t x1, uint64_t x2)
{
    (void)x2;
    return x1 - UINT64_C(1);
}

/* core::iter::ranges::RangeDoubleEndedIterator::next_back at u64 */
IN_LINE core__option__Option_14 core__iter__ranges__RangeDoubleEndedIterator__next_back(core__iter__ranges__Range *x1)
{
    uint64_t x2, x4, x7;
    core__option__Option_14 x6;
    x4 = x1->f0;
    if (core__iter__steps__UsizeStep__below(x4, x1->f1)) {
        x7 = x1->f1;
        x2 = core__iter__steps__UsizeStep__backward(x7, x1->f0);
        x1->f1 = x2;
        x6 = (core__option__Option_14){ .tag = UINT8_C(1), .v1_f1 = x2 };
    } else {
        x6 = (core__option__Option_14){ .tag = UINT8_C(0) };
    }
    return x6;
}

/* core::iter::adapters::RevIterator::next at core::iter::ranges::Range<u64>, u64 */
IN_LINE core__option__Option_14 core__iter__adapters__RevIterator__next(core__iter__adapters__Rev *x1)
{
    return core__iter__ranges__RangeDoubleEndedIterator__next_back(&x1->f0);
}

/* tour_ranking::fn::last_rise::find */
IN_LINE bool tour_ranking__fn__last_rise__find(tour_ranking__fn__last_rise__find_Self *x1, const uint64_t *x2)
{
    uint64_t x3, x8;
    const uint8_t *x4;
    uint8_t x7;
    x3 = *x2;
    x4 = x1->f0;
    x7 = *(x4 + x3);
    x8 = x3 + UINT64_C(1);
    return x7 < *(x4 + x8);
}

/* tour_ranking::fn::last_rise::find+FnMut::call_mut */
IN_LINE bool tour_ranking__fn__last_rise__find_FnMut__call_mut(tour_ranking__fn__last_rise__find_Self *x1, const uint64_t *x2)
{
    return tour_ranking__fn__last_rise__find(x1, x2);
}

/* core::iter::base::Iterator::find at core::iter::adapters::Rev<core::iter::ranges::Range<u64>>, u64,
 * tour_ranking::fn::last_rise::find+Self<&[u8; 8]> */
IN_LINE core__option__Option_14 core__iter__base__Iterator__find(
    core__iter__adapters__Rev *x1, tour_ranking__fn__last_rise__find_Self x2)
{
    tour_ranking__fn__last_rise__find_Self x3;
    uint64_t x4;
    core__option__Option_14 x5;
    tour_ranking__fn__last_rise__find_Self *x8;
    x3 = x2;
    for (;;) {
        x5 = core__iter__adapters__RevIterator__next(x1);
        switch (x5.tag) {
        case 1:
            x4 = x5.v1_f1;
            x8 = &x3;
            if (tour_ranking__fn__last_rise__find_FnMut__call_mut(x8, &x4)) {
                return (core__option__Option_14){ .tag = UINT8_C(1), .v1_f1 = x4 };
            }
            break;
        default:
            goto out1;
        }
    }
    out1:;
    return (core__option__Option_14){ .tag = UINT8_C(0) };
}

/* core::option::Option::unwrap_or at u64 */
IN_LINE uint64_t core__option__Option__unwrap_or_3(core__option__Option_14 x1, uint64_t x2)
{
    uint64_t x4;
    switch (x1.tag) {
    case 1:
        x4 = x1.v1_f1;
        break;
    default:
        x4 = x2;
        break;
    }
    return x4;
}

/* tour_ranking::last_rise */
static inline uint64_t tour_ranking__last_rise(const uint8_t *x1, uint64_t x2)
{
    core__option__Option_14 x3;
    core__iter__adapters__Rev x7;
    core__iter__adapters__Rev *x8;
    x7 = core__iter__base__Iterator__rev((core__iter__ranges__Range){ .f0 = UINT64_C(1), .f1 = x2 - UINT64_C(1) });
    x8 = &x7;
    x3 = core__iter__base__Iterator__find(x8, (tour_ranking__fn__last_rise__find_Self){ .f0 = x1 });
    return core__option__Option__unwrap_or_3(x3, UINT64_C(0));
}

/* tour_ranking::fn::last_above::find */
IN_LINE bool tour_ranking__fn__last_above__find(tour_ranking__fn__last_above__find_Self *x1, const uint64_t *x2)
{
    uint64_t x3;
    const uint8_t *x4, *x5;
    uint8_t x6;
    x3 = *x2;
    x4 = x1->f0;
    x5 = x1->f1;
    x6 = *x4;
    return x6 < *(x5 + x3);
}

/* tour_ranking::fn::last_above::find+FnMut::call_mut */
IN_LINE bool tour_ranking__fn__last_above__find_FnMut__call_mut(tour_ranking__fn__last_above__find_Self *x1, const uint64_t *x2)
{
    return tour_ranking__fn__last_above__find(x1, x2);
}

/* core::iter::base::Iterator::find at core::iter::adapters::Rev<core::iter::ranges::Range<u64>>, u64,
 * tour_ranking::fn::last_above::find+Self<&u8, &[u8; 8]> */
IN_LINE core__option__Option_14 core__iter__base__Iterator__find_2(
    core__iter__adapters__Rev *x1, tour_ranking__fn__last_above__find_Self x2)
{
    tour_ranking__fn__last_above__find_Self x3;
    uint64_t x4;
    core__option__Option_14 x5;
    tour_ranking__fn__last_above__find_Self *x8;
    x3 = x2;
    for (;;) {
        x5 = core__iter__adapters__RevIterator__next(x1);
        switch (x5.tag) {
        case 1:
            x4 = x5.v1_f1;
            x8 = &x3;
            if (tour_ranking__fn__last_above__find_FnMut__call_mut(x8, &x4)) {
                return (core__option__Option_14){ .tag = UINT8_C(1), .v1_f1 = x4 };
            }
            break;
        default:
            goto out1;
        }
    }
    out1:;
    return (core__option__Option_14){ .tag = UINT8_C(0) };
}

/* tour_ranking::last_above */
static inline uint64_t tour_ranking__last_above(const uint8_t *x1, uint64_t x2, uint64_t x3)
{
    uint8_t x4;
    core__option__Option_14 x8;
    core__iter__adapters__Rev x12;
    core__iter__adapters__Rev *x13;
    const uint8_t *x14;
    x4 = *(x1 + x3);
    x12 = core__iter__base__Iterator__rev((core__iter__ranges__Range){ .f0 = x3 + UINT64_C(1), .f1 = x2 });
    x13 = &x12;
    x14 = &x4;
    x8 = core__iter__base__Iterator__find_2(x13, (tour_ranking__fn__last_above__find_Self){ .f0 = x14, .f1 = x1 });
    return core__option__Option__unwrap_or_3(x8, x3 + UINT64_C(1));
}

/* core::slice::edits::swap_ordered at u8 */
IN_LINE void core__slice__edits__swap_ordered(slice_uint8_t x1, uint64_t x2, uint64_t x3)
{
    uint8_t *x4, *x5, *x6;
    uint8_t x7;
    x4 = x1.at;
    x5 = x4 + (x2 * UINT64_C(1));
    x6 = x4 + (x3 * UINT64_C(1));
    x7 = *x5;
    *x5 = *x6;
    *x6 = x7;
}

/* core::slice::edits::slice+T::swap at u8 */
IN_LINE void core__slice__edits__slice_T__swap(slice_uint8_t x1, uint64_t x2, uint64_t x3)
{
    if (x2 < x3) {
        core__slice__edits__swap_ordered((slice_uint8_t){ .at = x1.at, .length = x1.length }, x2, x3);
    } else {
        if (x3 < x2) {
            core__slice__edits__swap_ordered((slice_uint8_t){ .at = x1.at, .length = x1.length }, x3, x2);
        }
    }
}

/* tour_ranking::reverse */
static inline void tour_ranking__reverse(uint8_t *x1, uint64_t x2, uint64_t x3)
{
    uint64_t x4, x5, x12;
    slice_uint8_t x11;
    x4 = UINT64_C(0);
    x5 = ((x3 + UINT64_C(1)) - x2) / UINT64_C(2);
    while (x4 < x5) {
        x11 = (slice_uint8_t){ .at = x1, .length = UINT64_C(8) };
        x12 = x2 + x4;
        core__slice__edits__slice_T__swap(x11, x12, x3 - x4);
        x4 = x4 + UINT64_C(1);
    }
}

/* tour_ranking::next_order */
static inline uint64_t tour_ranking__next_order(uint8_t *x1, uint64_t x2)
{
    uint64_t x3, x4, x11;
    uint8_t *x10;
    x3 = tour_ranking__last_rise(x1, x2);
    x4 = tour_ranking__last_above(x1, x2, x3);
    core__slice__edits__slice_T__swap((slice_uint8_t){ .at = x1, .length = UINT64_C(8) }, x3, x4);
    x10 = x1;
    x11 = x3 + UINT64_C(1);
    tour_ranking__reverse(x10, x11, x2 - UINT64_C(1));
    return x3;
}

/* tour_search::best_tour */
static inline core__option__Option_6 tour_search__best_tour(const uint32_t *x1, uint64_t x2, uint64_t x3)
{
    array_8_uint8_t x4, x10;
    uint64_t x5, x8;
    array_8_uint32_t x6;
    core__option__Option_6 x7;
    uint32_t x9, x14;
    const uint8_t *x12;
    x10 = tour_ranking__first_order(x2);
    x4 = x10;
    x5 = UINT64_C(1);
    x6 = (array_8_uint32_t){ { 0 } };
    x7 = (core__option__Option_6){ .tag = UINT8_C(0) };
    x8 = UINT64_C(0);
    while (x8 < x3) {
        x12 = x4.at;
        x9 = tour_search__add_moves(x1, x12, x2, x5, x6.at);
        x14 = tour_search__lowest(x7);
        if (x9 < x14) {
            x7 = tour_search__taken(x4.at, x9);
        }
        x5 = tour_ranking__next_order(x4.at, x2);
        x8 = x8 + UINT64_C(1);
    }
    return x7;
}

/* tour_entries::cheapest_entry */
static inline uint32_t tour_entries__cheapest_entry(const uint32_t *x1, uint64_t x2, uint64_t x3)
{
    uint32_t x4;
    uint64_t x5, x7, x10;
    const uint8_t *x9;
    x4 = UINT32_C(65535);
    x5 = UINT64_C(0);
    while (x5 < x2) {
        if (x5 != x3) {
            x7 = x5 * UINT64_C(32);
            x9 = (const uint8_t *)x1 + x7;
            x10 = x3 * UINT64_C(4);
            x4 = core__int__u32__min(x4, *(const uint32_t *)((const uint8_t *)(const uint32_t *)x9 + x10));
        }
        x5 = x5 + UINT64_C(1);
    }
    return x4;
}

/* tour_entries::least_figure */
static inline uint32_t tour_entries__least_figure(array_64_uint32_t x1, uint64_t x2)
{
    array_64_uint32_t x3;
    uint32_t x4, x7;
    uint64_t x5;
    x3 = x1;
    x4 = UINT32_C(0);
    x5 = UINT64_C(1);
    while (x5 < x2) {
        x7 = tour_entries__cheapest_entry(x3.at, x2, x5);
        x4 = x4 + x7;
        x5 = x5 + UINT64_C(1);
    }
    return x4;
}

/* tour_search::search_tours */
static inline tour_sums__SearchedTour tour_search__search_tours(array_64_uint32_t x1, uint64_t x2, uint16_t x3)
{
    array_64_uint32_t x4, x10;
    uint64_t x5;
    core__option__Option_6 x6;
    uint32_t x8, x9;
    x4 = x1;
    x5 = tour_search__tried_count(x2, x3);
    x6 = tour_search__best_tour(x4.at, x2, x5);
    x8 = (uint32_t)x5;
    x10 = x4;
    x9 = tour_entries__least_figure(x10, x2);
    return (tour_sums__SearchedTour){ .f0 = x6, .f1 = x8, .f2 = x9 };
}

/* core::option::Option::unwrap_or at tour_sums::Tour */
IN_LINE tour_sums__Tour core__option__Option__unwrap_or(core__option__Option_6 x1, tour_sums__Tour x2)
{
    tour_sums__Tour x4;
    switch (x1.tag) {
    case 1:
        x4 = x1.v1_f1;
        break;
    default:
        x4 = x2;
        break;
    }
    return x4;
}

/* core::option::Option::is_some at tour_sums::Tour */
IN_LINE bool core__option__Option__is_some(const core__option__Option_6 *x1)
{
    bool x2;
    switch (x1->tag) {
    case 1:
        x2 = true;
        break;
    default:
        x2 = false;
        break;
    }
    return x2;
}

/* tour::accepted */
static inline HanjolumWindowTour tour__accepted(tour_sums__SearchedTour x1)
{
    HanjolumWindowTour x0;
    tour_sums__SearchedTour x2;
    tour_sums__Tour x3, x7;
    array_8_uint8_t x4, x6;
    uint32_t x5, x11, x12;
    bool x9;
    x2 = x1;
    x6 = (array_8_uint8_t){ { 0 } };
    memcpy(x3.f0, x6.at, sizeof x3.f0);
    x3.f1 = UINT32_C(0);
    x7 = core__option__Option__unwrap_or(x2.f0, x3);
    memcpy(x4.at, x7.f0, sizeof x4.at);
    x5 = x7.f1;
    x9 = core__option__Option__is_some(&x2.f0);
    x11 = x2.f1;
    x12 = x2.f2;
    x0.number = UINT8_C(0);
    x0.found = x9;
    memcpy(x0.order, x4.at, sizeof x0.order);
    x0.sum = x5;
    x0.tried = x11;
    x0.least = x12;
    return x0;
}

/* tour::window_tour */
static inline HanjolumWindowTour tour__window_tour(slice_const_uint8_t x1, slice_const_uint8_t x2, uint16_t x3)
{
    const uint8_t *x4;
    array_64_uint32_t x5;
    tour_sums__SearchedTour x6;
    core__result__Result_5 x8;
    uint8_t x9, x15;
    core__result__Result x11;
    HanjolumWindowTour x12;
    x8 = core__convert__lends__RefArrayTryFromRefSlice__try_from(x1);
    switch (x8.tag) {
    case 0:
        x4 = x8.v0_f1;
        break;
    default:
        x9 = refusals__Refusal__number((refusals__Refusal){ .tag = UINT8_C(0) });
        return tour__refused(x9);
    }
    x11 = window_steps__window_costs_number(x1, x2);
    switch (x11.tag) {
    case 0:
        x5 = window_costs__window_square(x4, x2);
        x6 = tour_search__search_tours(x5, x2.length / UINT64_C(8), x3);
        x12 = tour__accepted(x6);
        break;
    default:
        x15 = refusals__Refusal__number(x11.v1_f1);
        x12 = tour__refused(x15);
        break;
    }
    return x12;
}

/* hanjolum::hanjolum_window_tour */
HanjolumWindowTour hanjolum_window_tour(
    const uint8_t *costs, size_t costs_length, const uint8_t *steps, size_t steps_length, uint16_t limit)
{
    slice_const_uint8_t x1 = { costs, costs_length };
    slice_const_uint8_t x2 = { steps, steps_length };
    return tour__window_tour(x1, x2, limit);
}

/* core::simd::chunks::arrays at u8, 6400 */
IN_LINE slice_const_uint8_t core__simd__chunks__arrays_4(slice_const_uint8_t x1, uint64_t x2)
{
    slice_const_uint8_t x3;
    x3 = (slice_const_uint8_t){ .at = x1.at, .length = x2 };
    return x3;
}

/* core::slice::arrays::first_unchecked at [u8; 6400] */
IN_LINE const uint8_t *core__slice__arrays__first_unchecked_3(slice_const_uint8_t x1)
{
    return x1.at + (UINT64_C(0) * (uint64_t)sizeof(array_6400_uint8_t));
}

/* core::slice::arrays::as_array_ref at u8, 6400 */
IN_LINE const uint8_t *core__slice__arrays__as_array_ref_3(slice_const_uint8_t x1)
{
    slice_const_uint8_t x2;
    x2 = core__simd__chunks__arrays_4(x1, UINT64_C(1));
    return core__slice__arrays__first_unchecked_3(x2);
}

/* core::array::clones::ok at &[u8; 6400], core::convert::lends::TryFromSliceError */
IN_LINE core__result__Result_9 core__array__clones__ok_3(const uint8_t *x1)
{
    return (core__result__Result_9){ .tag = UINT8_C(0), .v0_f1 = x1 };
}

/* core::convert::lends::RefArrayTryFromRefSlice::try_from at u8, 6400 */
IN_LINE core__result__Result_9 core__convert__lends__RefArrayTryFromRefSlice__try_from_3(slice_const_uint8_t x1)
{
    const uint8_t *x5;
    if (x1.length != UINT64_C(6400)) {
        return (core__result__Result_9){ .tag = UINT8_C(1) };
    }
    x5 = core__slice__arrays__as_array_ref_3(x1);
    return core__array__clones__ok_3(x5);
}

/* step_list::is_no_step_list */
static inline bool step_list__is_no_step_list(slice_const_uint8_t x1)
{
    uint64_t x2;
    bool x3, x4;
    x2 = x1.length;
    x4 = x2 == UINT64_C(0);
    if (!x4) {
        x4 = UINT64_C(128) < x2;
    }
    x3 = x4;
    if (!x3) {
        x3 = (x2 % UINT64_C(8)) != UINT64_C(0);
    }
    return x3;
}

/* core::simd::chunks::arrays at u8, 8 */
IN_LINE slice_const_uint8_t core__simd__chunks__arrays_3(slice_const_uint8_t x1, uint64_t x2)
{
    slice_const_uint8_t x3;
    x3 = (slice_const_uint8_t){ .at = x1.at, .length = x2 };
    return x3;
}

/* core::simd::chunks::slice+T::as_chunks at u8, 8 */
IN_LINE tuple_of_2 core__simd__chunks__slice_T__as_chunks(slice_const_uint8_t x1)
{
    uint64_t x2, x3, x7;
    slice_const_uint8_t x4;
    const uint8_t *x6;
    x3 = x1.length;
    x2 = x3 / UINT64_C(8);
    x4 = core__simd__chunks__arrays_3(x1, x2);
    x3 = x2 * UINT64_C(8);
    x6 = part(x1.at, x3 * UINT64_C(1));
    x7 = x1.length - x3;
    return (tuple_of_2){ .f0 = x4, .f1 = (slice_const_uint8_t){ .at = x6, .length = x7 } };
}

/* leg::floor_number */
static inline core__result__Result leg__floor_number(const uint8_t *x1, const uint8_t *x2)
{
    uint8_t x3;
    uint64_t x4, x10, x13;
    const uint8_t *x12;
    slice_const_uint8_t x15;
    x3 = *(x2 + UINT64_C(0));
    if (UINT8_C(63) < x3) {
        return (core__result__Result){ .tag = UINT8_C(1), .v1_f1 = (refusals__Refusal){ .tag = UINT8_C(3) } };
    }
    x10 = core__convert__UsizeFromU8__from(x3);
    x4 = x10 * UINT64_C(100);
    x10 = x4 + UINT64_C(100);
    x12 = part(x1, x4);
    x13 = x10 - x4;
    x15 = (slice_const_uint8_t){ .at = x12, .length = x13 };
    return step_numbers__step_number_on(x15, (slice_const_uint8_t){ .at = x2, .length = UINT64_C(8) });
}

/* leg::each_step */
static inline core__result__Result leg__each_step(const uint8_t *x1, slice_const_uint8_t x2)
{
    uint64_t x3, x7;
    const uint8_t *x4;
    core__ops__ControlFlow x11;
    core__result__Result x12;
    x3 = UINT64_C(0);
    x7 = x2.length;
    while (x3 < x7) {
        x4 = x2.at + (x3 * UINT64_C(8));
        x12 = leg__floor_number(x1, x4);
        x11 = core__result__ResultTry__branch(x12);
        switch (x11.tag) {
        case 0:
            break;
        default:
            return core__result__ResultFromResidualErrResidual__from_residual(x11.v1_f1);
        }
        x3 = x3 + UINT64_C(1);
    }
    return (core__result__Result){ .tag = UINT8_C(0) };
}

/* core::slice::index::UsizeSliceIndexRefSlice::pick at [u8; 8] */
IN_LINE core__option__Option_13 core__slice__index__UsizeSliceIndexRefSlice__pick_2(uint64_t x1, slice_const_uint8_t x2)
{
    core__option__Option_13 x5;
    if (x1 < x2.length) {
        x5 = (core__option__Option_13){ .tag = UINT8_C(1), .v1_f1 = x2.at + (x1 * (uint64_t)sizeof(array_8_uint8_t)) };
    } else {
        x5 = (core__option__Option_13){ .tag = UINT8_C(0) };
    }
    return x5;
}

/* core::slice::slice+T::get at [u8; 8], u64, &[u8; 8] */
IN_LINE core__option__Option_13 core__slice__slice_T__get_2(slice_const_uint8_t x1, uint64_t x2)
{
    return core__slice__index__UsizeSliceIndexRefSlice__pick_2(x2, x1);
}

/* core::slice::slice+T::first at [u8; 8] */
IN_LINE core__option__Option_13 core__slice__slice_T__first(slice_const_uint8_t x1)
{
    return core__slice__slice_T__get_2(x1, UINT64_C(0));
}

/* core::iter::slices::slice+T::iter at [u8; 8] */
IN_LINE core__iter__slices__Iter_3 core__iter__slices__slice_T__iter_3(slice_const_uint8_t x1)
{
    return (core__iter__slices__Iter_3){ .f0 = x1 };
}

/* core::slice::slice+T::is_empty at [u8; 8] */
IN_LINE bool core__slice__slice_T__is_empty_3(slice_const_uint8_t x1)
{
    return x1.length == UINT64_C(0);
}

/* core::iter::slices::IterIterator::next at [u8; 8] */
IN_LINE core__option__Option_13 core__iter__slices__IterIterator__next_3(core__iter__slices__Iter_3 *x1)
{
    core__option__Option_13 x0;
    slice_const_uint8_t x2;
    const uint8_t *x5;
    uint64_t x6;
    x2 = x1->f0;
    if (core__slice__slice_T__is_empty_3(x2)) {
        return (core__option__Option_13){ .tag = UINT8_C(0) };
    }
    x5 = x2.at + (UINT64_C(1) * (uint64_t)sizeof(array_8_uint8_t));
    x6 = x2.length - UINT64_C(1);
    x1->f0 = (slice_const_uint8_t){ .at = x5, .length = x6 };
    x0 = (core__option__Option_13){ .tag = UINT8_C(1), .v1_f1 = x2.at + (UINT64_C(0) * (uint64_t)sizeof(array_8_uint8_t)) };
    return x0;
}

/* leg::fn::has_goal::any */
IN_LINE bool leg__fn__has_goal__any(const uint8_t *x1)
{
    return *(x1 + UINT64_C(2)) != UINT8_C(1);
}

/* leg::fn::has_goal::any+FnMut::call_mut */
IN_LINE bool leg__fn__has_goal__any_FnMut__call_mut(const uint8_t *x1)
{
    return leg__fn__has_goal__any(x1);
}

/* core::iter::base::Iterator::any at core::iter::slices::Iter<[u8; 8]>, &[u8; 8], leg::fn::has_goal::any+Self */
IN_LINE bool core__iter__base__Iterator__any_2(core__iter__slices__Iter_3 *x1)
{
    core__option__Option_13 x5;
    for (;;) {
        x5 = core__iter__slices__IterIterator__next_3(x1);
        switch (x5.tag) {
        case 1:
            if (leg__fn__has_goal__any_FnMut__call_mut(x5.v1_f1)) {
                return true;
            }
            break;
        default:
            goto out1;
        }
    }
    out1:;
    return false;
}

/* leg::has_goal */
static inline bool leg__has_goal(slice_const_uint8_t x1)
{
    core__iter__slices__Iter_3 x3;
    x3 = core__iter__slices__slice_T__iter_3(x1);
    return core__iter__base__Iterator__any_2(&x3);
}

/* leg::fn::is_named::any */
IN_LINE bool leg__fn__is_named__any(leg__fn__is_named__any_Self *x1, const uint8_t *x2)
{
    const uint8_t *x3;
    uint8_t x6;
    x3 = x1->f0;
    x6 = *(x2 + UINT64_C(0));
    return x6 == *x3;
}

/* leg::fn::is_named::any+FnMut::call_mut */
IN_LINE bool leg__fn__is_named__any_FnMut__call_mut(leg__fn__is_named__any_Self *x1, const uint8_t *x2)
{
    return leg__fn__is_named__any(x1, x2);
}

/* core::iter::base::Iterator::any at core::iter::slices::Iter<[u8; 8]>, &[u8; 8], leg::fn::is_named::any+Self<&u8> */
IN_LINE bool core__iter__base__Iterator__any_4(core__iter__slices__Iter_3 *x1, leg__fn__is_named__any_Self x2)
{
    leg__fn__is_named__any_Self x3;
    const uint8_t *x4;
    core__option__Option_13 x5;
    leg__fn__is_named__any_Self *x8;
    x3 = x2;
    for (;;) {
        x5 = core__iter__slices__IterIterator__next_3(x1);
        switch (x5.tag) {
        case 1:
            x4 = x5.v1_f1;
            x8 = &x3;
            if (leg__fn__is_named__any_FnMut__call_mut(x8, x4)) {
                return true;
            }
            break;
        default:
            goto out1;
        }
    }
    out1:;
    return false;
}

/* leg::is_named */
static inline bool leg__is_named(slice_const_uint8_t x1, uint8_t x2)
{
    uint8_t x3;
    core__iter__slices__Iter_3 x5;
    core__iter__slices__Iter_3 *x6;
    x3 = x2;
    x5 = core__iter__slices__slice_T__iter_3(x1);
    x6 = &x5;
    return core__iter__base__Iterator__any_4(x6, (leg__fn__is_named__any_Self){ .f0 = &x3 });
}

/* leg::is_named_twice */
static inline bool leg__is_named_twice(slice_const_uint8_t x1)
{
    uint64_t x2, x3, x6, x9;
    const uint8_t *x8;
    slice_const_uint8_t x11;
    x2 = UINT64_C(0);
    x3 = x1.length;
    while (x2 < x3) {
        x6 = x2 + UINT64_C(1);
        x8 = x1.at + (x6 * UINT64_C(8));
        x9 = x1.length - x6;
        x11 = (slice_const_uint8_t){ .at = x8, .length = x9 };
        if (leg__is_named(x11, *((x1.at + (x2 * UINT64_C(8))) + UINT64_C(0)))) {
            return true;
        }
        x2 = x2 + UINT64_C(1);
    }
    return false;
}

/* leg::is_out_of_order */
static inline bool leg__is_out_of_order(slice_const_uint8_t x1)
{
    const uint8_t *x2, *x9;
    core__option__Option_13 x3;
    bool x4, x5;
    uint64_t x10;
    x3 = core__slice__slice_T__first(x1);
    switch (x3.tag) {
    case 1:
        x2 = x3.v1_f1;
        break;
    default:
        return false;
    }
    x5 = *(x2 + UINT64_C(2)) == UINT8_C(1);
    if (!x5) {
        x9 = x1.at + UINT64_C(8);
        x10 = x1.length - UINT64_C(1);
        x5 = leg__has_goal((slice_const_uint8_t){ .at = x9, .length = x10 });
    }
    x4 = x5;
    if (!x4) {
        x4 = leg__is_named_twice(x1);
    }
    return x4;
}

/* sectors::get_in_compass_direction */
static inline core__option__Option_14 sectors__get_in_compass_direction(uint64_t x1, utilities__CompassDir x2)
{
    utilities__Differences x3;
    uint64_t x4, x5, x15;
    bool x6;
    x6 = UINT64_C(63) < x1;
    if (x6) {
        return (core__option__Option_14){ .tag = UINT8_C(0) };
    }
    x6 = utilities__CompassDir__points(x2);
    if (!x6) {
        return (core__option__Option_14){ .tag = UINT8_C(0) };
    }
    x3 = utilities__CompassDir__differences(x2);
    x4 = signed_sum(x1 % UINT64_C(8), x3.f0);
    x5 = signed_sum(x1 / UINT64_C(8), x3.f1);
    if (signed_at_most(UINT64_C(0), x4)) {
        if (signed_at_most(x4, UINT64_C(7))) {
            if (signed_at_most(UINT64_C(0), x5)) {
                if (signed_at_most(x5, UINT64_C(7))) {
                    x15 = x5 * UINT64_C(8);
                    return (core__option__Option_14){ .tag = UINT8_C(1), .v1_f1 = x15 + x4 };
                }
            }
        }
    }
    return (core__option__Option_14){ .tag = UINT8_C(0) };
}

/* leg::faces */
static inline bool leg__faces(uint8_t x1, uint8_t x2, uint8_t x3)
{
    utilities__CompassDir x4;
    uint64_t x5, x7;
    core__option__Option_14 x6;
    x4 = utilities__CompassDir__from_boundary(x2);
    x7 = core__convert__UsizeFromU8__from(x1);
    x6 = sectors__get_in_compass_direction(x7, x4);
    switch (x6.tag) {
    case 1:
        x5 = x6.v1_f1;
        break;
    default:
        return false;
    }
    x7 = core__convert__UsizeFromU8__from(x3);
    return x5 == x7;
}

/* leg::is_disconnected */
static inline bool leg__is_disconnected(slice_const_uint8_t x1)
{
    uint64_t x2, x4;
    const uint8_t *x3;
    bool x5;
    uint8_t x10, x13;
    x2 = UINT64_C(1);
    x4 = x1.length;
    for (;;) {
        x5 = x2 < x4;
        if (!x5) {
            break;
        }
        x3 = x1.at + (x2 * UINT64_C(8));
        x10 = *(x3 + UINT64_C(0));
        x13 = *(x3 + UINT64_C(5));
        x5 = leg__faces(x10, x13, *((x1.at + ((x2 - UINT64_C(1)) * UINT64_C(8))) + UINT64_C(0)));
        if (!x5) {
            return true;
        }
        x2 = x2 + UINT64_C(1);
    }
    return false;
}

/* leg::leg_number */
static inline core__result__Result leg__leg_number(slice_const_uint8_t x1, slice_const_uint8_t x2, uint64_t x3)
{
    const uint8_t *x4;
    slice_const_uint8_t x5;
    core__result__Result_9 x8;
    tuple_of_2 x14;
    core__ops__ControlFlow x15;
    core__result__Result x16;
    x8 = core__convert__lends__RefArrayTryFromRefSlice__try_from_3(x1);
    switch (x8.tag) {
    case 0:
        x4 = x8.v0_f1;
        break;
    default:
        return (core__result__Result){ .tag = UINT8_C(1), .v1_f1 = (refusals__Refusal){ .tag = UINT8_C(0) } };
    }
    if (x3 != UINT64_C(6400)) {
        return (core__result__Result){ .tag = UINT8_C(1), .v1_f1 = (refusals__Refusal){ .tag = UINT8_C(1) } };
    }
    if (step_list__is_no_step_list(x2)) {
        return (core__result__Result){ .tag = UINT8_C(1), .v1_f1 = (refusals__Refusal){ .tag = UINT8_C(2) } };
    }
    x14 = core__simd__chunks__slice_T__as_chunks(x2);
    x5 = x14.f0;
    x16 = leg__each_step(x4, x5);
    x15 = core__result__ResultTry__branch(x16);
    switch (x15.tag) {
    case 0:
        break;
    default:
        return core__result__ResultFromResidualErrResidual__from_residual(x15.v1_f1);
    }
    if (leg__is_out_of_order(x5)) {
        return (core__result__Result){ .tag = UINT8_C(1), .v1_f1 = (refusals__Refusal){ .tag = UINT8_C(8) } };
    }
    if (leg__is_disconnected(x5)) {
        return (core__result__Result){ .tag = UINT8_C(1), .v1_f1 = (refusals__Refusal){ .tag = UINT8_C(9) } };
    }
    return (core__result__Result){ .tag = UINT8_C(0) };
}

/* core::option::Option::as_ref at [u32; 100] */
IN_LINE core__option__Option_4 core__option__Option__as_ref(const core__option__Option_10 *x1)
{
    core__option__Option_4 x3;
    switch (x1->tag) {
    case 1:
        x3 = (core__option__Option_4){ .tag = UINT8_C(1), .v1_f1 = x1->v1_f1 };
        break;
    default:
        x3 = (core__option__Option_4){ .tag = UINT8_C(0) };
        break;
    }
    return x3;
}

/* leg_counting::counts */
static inline bool leg_counting__counts(route__PortalWindow x1, const uint32_t *x2, uint64_t x3)
{
    flow_byte__SeenValues x4;
    bool x5, x6;
    x4 = flow_new__seen_values(x1, x2, x3);
    x6 = x4.f1 < UINT32_C(65535);
    if (!x6) {
        x6 = x4.f0 < UINT32_C(65535);
    }
    x5 = x6;
    if (!x5) {
        x5 = x4.f2 < UINT32_C(65535);
    }
    return x5;
}

/* leg_counting::counting_cells */
static inline fields__CellList leg_counting__counting_cells(route__PortalWindow x1, const uint32_t *x2)
{
    fields__CellList x3, x4;
    uint64_t x5, x8, x14;
    uint8_t x6;
    x3 = route__PortalWindow__get_all_window_cells(x1);
    x4 = fields__CellList__none();
    x5 = UINT64_C(0);
    x8 = x3.f1;
    while (x5 < x8) {
        x6 = *(x3.f0 + x5);
        x14 = core__convert__UsizeFromU8__from(x6);
        if (leg_counting__counts(x1, x2, x14)) {
            fields__CellList__push(&x4, x6);
        }
        x5 = x5 + UINT64_C(1);
    }
    return x4;
}

/* leg_counting::leg_target */
static inline route__Target leg_counting__leg_target(slice_const_uint8_t x1, bool x2, core__option__Option_4 x3)
{
    const uint32_t *x4;
    route__Target x5, x8;
    fields__CellList x6;
    route__PortalWindow x7;
    route__RouteStep x9;
    switch (x3.tag) {
    case 1:
        x4 = x3.v1_f1;
        x7 = route__PortalWindow__new(x1);
        x6 = leg_counting__counting_cells(x7, x4);
        x5 = (route__Target){ .tag = UINT8_C(1), .v1_f1 = x6 };
        break;
    default:
        x9 = route__RouteStep__new(x1);
        x8 = route__RouteStep__as_target(x9);
        x5 = route__Target__by_sight(x8, x2);
        break;
    }
    return x5;
}

/* leg_counting::is_closed */
static inline bool leg_counting__is_closed(route__Target x1)
{
    bool x3;
    switch (x1.tag) {
    case 1:
        x3 = x1.v1_f1.f1 == UINT64_C(0);
        break;
    default:
        x3 = false;
        break;
    }
    return x3;
}

/* core::result::Result::unwrap at &[u8; 100], core::convert::lends::TryFromSliceError */
IN_LINE const uint8_t *core__result__Result__unwrap(core__result__Result_5 x1)
{
    return x1.v0_f1;
}

/* integration_target::build_target */
NOT_IN_LINE HanjolumIntegrationField integration_target__build_target(const uint8_t *x1, route__Target x2)
{
    HanjolumIntegrationField x3;
    x3 = integration_init__start(x1, x2);
    return integration_build__build_without_positions(x1, x3);
}

/* leg::build_step */
NOT_IN_LINE HanjolumIntegrationField leg__build_step(slice_const_uint8_t x1, uint64_t x2, route__Target x3)
{
    uint64_t x4, x7, x9;
    const uint8_t *x5, *x8;
    core__result__Result_5 x6;
    x4 = x2 * UINT64_C(100);
    x7 = x4 + UINT64_C(100);
    x8 = part(x1.at, x4);
    x9 = x7 - x4;
    x6 = core__convert__lends__RefArrayTryFromRefSlice__try_from((slice_const_uint8_t){ .at = x8, .length = x9 });
    x5 = core__result__Result__unwrap(x6);
    return integration_target__build_target(x5, x3);
}

/* leg::is_some_closed */
static inline bool leg__is_some_closed(slice_const_uint8_t x1, slice_const_uint8_t x2, bool x3)
{
    slice_const_uint8_t x4, x16;
    core__option__Option_10 x5;
    uint64_t x6, x11, x13;
    const uint8_t *x7;
    route__Target x8;
    tuple_of_2 x10;
    core__option__Option_4 x17;
    route__RouteStep x21;
    HanjolumIntegrationField x24;
    array_100_uint32_t x25;
    x10 = core__simd__chunks__slice_T__as_chunks(x2);
    x4 = x10.f0;
    x5.tag = UINT8_C(0);
    x6 = UINT64_C(0);
    x11 = x4.length;
    while (x6 < x11) {
        x13 = x6 * UINT64_C(8);
        x7 = x4.at + x13;
        x16 = (slice_const_uint8_t){ .at = x7, .length = UINT64_C(8) };
        x17 = core__option__Option__as_ref(&x5);
        x8 = leg_counting__leg_target(x16, x3, x17);
        if (leg_counting__is_closed(x8)) {
            return true;
        }
        x13 = x6 + UINT64_C(1);
        if (x13 == x4.length) {
            return false;
        }
        x21 = route__RouteStep__new((slice_const_uint8_t){ .at = x7, .length = UINT64_C(8) });
        x24 = leg__build_step(x1, x21.f0, x8);
        memcpy(x25.at, x24.field, sizeof x25.at);
        x5.tag = UINT8_C(1);
        memcpy(x5.v1_f1, x25.at, sizeof x5.v1_f1);
        x6 = x6 + UINT64_C(1);
    }
    return false;
}

/* leg::write_part */
IN_LINE void leg__write_part(
    core__option__Option_5 x1, fields__CellList x2, HanjolumIntegrationField x3, core__option__Option_4 x4,
    slice_uint8_t x5)
{
    uint8_t *x6;
    core__option__Option_3 x7;
    core__option__Option_4 x11;
    x7 = core__slice__chunk_mut__slice_T__as_mut_array((slice_uint8_t){ .at = x5.at, .length = x5.length });
    switch (x7.tag) {
    case 1:
        x6 = x7.v1_f1;
        x11 = x4;
        sector__write(x1, x2, x3, x11, x6);
        break;
    default:
        break;
    }
}

/* leg::write_step */
static inline array_100_uint32_t leg__write_step(
    slice_const_uint8_t x1, const uint8_t *x2, bool x3, core__option__Option_4 x4, slice_uint8_t x5)
{
    array_100_uint32_t x0;
    uint64_t x6, x10, x23, x25;
    route__Target x7;
    HanjolumIntegrationField x8;
    core__option__Option_5 x9;
    route__RouteStep x11;
    slice_const_uint8_t x15;
    route__PortalWindow x17;
    fields__CellList x21;
    core__option__Option_4 x22;
    uint8_t *x24;
    x11 = route__RouteStep__new((slice_const_uint8_t){ .at = x2, .length = UINT64_C(8) });
    x6 = x11.f0;
    x15 = (slice_const_uint8_t){ .at = x2, .length = UINT64_C(8) };
    x7 = leg_counting__leg_target(x15, x3, x4);
    x8 = leg__build_step(x1, x6, x7);
    x17 = route__PortalWindow__new((slice_const_uint8_t){ .at = x2, .length = UINT64_C(8) });
    x9 = (core__option__Option_5){ .tag = UINT8_C(1), .v1_f1 = x17 };
    x10 = x6 * UINT64_C(100);
    x21 = route__Target__window(x7);
    x22 = x4;
    x23 = x10 + UINT64_C(100);
    x24 = part_to_write(x5.at, x10);
    x25 = x23 - x10;
    leg__write_part(x9, x21, x8, x22, (slice_uint8_t){ .at = x24, .length = x25 });
    memcpy(x0.at, x8.field, sizeof x0.at);
    return x0;
}

/* leg::write_steps */
static inline void leg__write_steps(slice_const_uint8_t x1, slice_const_uint8_t x2, bool x3, slice_uint8_t x4)
{
    slice_const_uint8_t x5;
    core__option__Option_10 x6;
    uint64_t x7, x11;
    const uint8_t *x8;
    array_100_uint32_t x9;
    tuple_of_2 x10;
    core__option__Option_4 x15;
    x10 = core__simd__chunks__slice_T__as_chunks(x2);
    x5 = x10.f0;
    x6.tag = UINT8_C(0);
    x7 = UINT64_C(0);
    x11 = x5.length;
    while (x7 < x11) {
        x8 = x5.at + (x7 * UINT64_C(8));
        x15 = core__option__Option__as_ref(&x6);
        x9 = leg__write_step(x1, x8, x3, x15, (slice_uint8_t){ .at = x4.at, .length = x4.length });
        x6.tag = UINT8_C(1);
        memcpy(x6.v1_f1, x9.at, sizeof x6.v1_f1);
        x7 = x7 + UINT64_C(1);
    }
}

/* leg::plan_by_sight */
static inline core__result__Result leg__plan_by_sight(slice_const_uint8_t x1, slice_const_uint8_t x2, bool x3, slice_uint8_t x4)
{
    core__ops__ControlFlow x7;
    core__result__Result x8;
    x8 = leg__leg_number(x1, x2, x4.length);
    x7 = core__result__ResultTry__branch(x8);
    switch (x7.tag) {
    case 0:
        break;
    default:
        return core__result__ResultFromResidualErrResidual__from_residual(x7.v1_f1);
    }
    if (leg__is_some_closed(x1, x2, x3)) {
        return (core__result__Result){ .tag = UINT8_C(1), .v1_f1 = (refusals__Refusal){ .tag = UINT8_C(14) } };
    }
    leg__write_steps(x1, x2, x3, (slice_uint8_t){ .at = x4.at, .length = x4.length });
    return (core__result__Result){ .tag = UINT8_C(0) };
}

/* leg::plan_leg */
static inline core__result__Result leg__plan_leg(slice_const_uint8_t x1, slice_const_uint8_t x2, slice_uint8_t x3)
{
    return leg__plan_by_sight(x1, x2, true, (slice_uint8_t){ .at = x3.at, .length = x3.length });
}

/* refusals::number */
static inline uint8_t refusals__number(core__result__Result x1)
{
    uint8_t x3;
    switch (x1.tag) {
    case 0:
        x3 = UINT8_C(0);
        break;
    default:
        x3 = refusals__Refusal__number(x1.v1_f1);
        break;
    }
    return x3;
}

/* hanjolum::hanjolum_leg */
uint8_t hanjolum_leg(
    const uint8_t *floor, size_t floor_length, const uint8_t *steps, size_t steps_length, uint8_t *sheet,
    size_t sheet_length)
{
    slice_const_uint8_t x1 = { floor, floor_length };
    slice_const_uint8_t x2 = { steps, steps_length };
    slice_uint8_t x3 = { sheet, sheet_length };
    core__result__Result x4;
    x4 = leg__plan_leg(x1, x2, (slice_uint8_t){ .at = x3.at, .length = x3.length });
    return refusals__number(x4);
}

/* leg::plan_leg_without_sight */
static inline core__result__Result leg__plan_leg_without_sight(slice_const_uint8_t x1, slice_const_uint8_t x2, slice_uint8_t x3)
{
    return leg__plan_by_sight(x1, x2, false, (slice_uint8_t){ .at = x3.at, .length = x3.length });
}

/* hanjolum::hanjolum_leg_without_sight */
uint8_t hanjolum_leg_without_sight(
    const uint8_t *floor, size_t floor_length, const uint8_t *steps, size_t steps_length, uint8_t *sheet,
    size_t sheet_length)
{
    slice_const_uint8_t x1 = { floor, floor_length };
    slice_const_uint8_t x2 = { steps, steps_length };
    slice_uint8_t x3 = { sheet, sheet_length };
    core__result__Result x4;
    x4 = leg__plan_leg_without_sight(x1, x2, (slice_uint8_t){ .at = x3.at, .length = x3.length });
    return refusals__number(x4);
}

/* leg_field::field_number */
static inline core__result__Result leg_field__field_number(slice_const_uint8_t x1, slice_const_uint8_t x2, uint64_t x3)
{
    if (x1.length != UINT64_C(6400)) {
        return (core__result__Result){ .tag = UINT8_C(1), .v1_f1 = (refusals__Refusal){ .tag = UINT8_C(0) } };
    }
    if (step_list__is_no_step_list(x2)) {
        return (core__result__Result){ .tag = UINT8_C(1), .v1_f1 = (refusals__Refusal){ .tag = UINT8_C(2) } };
    }
    if ((x2.length / UINT64_C(8)) <= x3) {
        return (core__result__Result){ .tag = UINT8_C(1), .v1_f1 = (refusals__Refusal){ .tag = UINT8_C(20) } };
    }
    return leg__leg_number(x1, x2, UINT64_C(6400));
}

/* leg_field::number_by_sight */
static inline core__result__Result leg_field__number_by_sight(
    slice_const_uint8_t x1, slice_const_uint8_t x2, bool x3, uint64_t x4)
{
    core__ops__ControlFlow x7;
    core__result__Result x8;
    x8 = leg_field__field_number(x1, x2, x4);
    x7 = core__result__ResultTry__branch(x8);
    switch (x7.tag) {
    case 0:
        break;
    default:
        return core__result__ResultFromResidualErrResidual__from_residual(x7.v1_f1);
    }
    if (leg__is_some_closed(x1, x2, x3)) {
        return (core__result__Result){ .tag = UINT8_C(1), .v1_f1 = (refusals__Refusal){ .tag = UINT8_C(14) } };
    }
    return (core__result__Result){ .tag = UINT8_C(0) };
}

/* leg_field::cells_before */
static inline core__option__Option_10 leg_field__cells_before(
    slice_const_uint8_t x1, slice_const_uint8_t x2, bool x3, uint64_t x4)
{
    slice_const_uint8_t x5, x7, x20;
    core__option__Option_10 x6;
    uint64_t x8, x15;
    const uint8_t *x9;
    route__Target x10;
    tuple_of_2 x12;
    core__option__Option_4 x21;
    route__RouteStep x23;
    HanjolumIntegrationField x26;
    array_100_uint32_t x27;
    x12 = core__simd__chunks__slice_T__as_chunks(x2);
    x5 = x12.f0;
    x6.tag = UINT8_C(0);
    x7 = (slice_const_uint8_t){ .at = x5.at, .length = x4 };
    x8 = UINT64_C(0);
    x15 = x7.length;
    while (x8 < x15) {
        x9 = x7.at + (x8 * UINT64_C(8));
        x20 = (slice_const_uint8_t){ .at = x9, .length = UINT64_C(8) };
        x21 = core__option__Option__as_ref(&x6);
        x10 = leg_counting__leg_target(x20, x3, x21);
        x23 = route__RouteStep__new((slice_const_uint8_t){ .at = x9, .length = UINT64_C(8) });
        x26 = leg__build_step(x1, x23.f0, x10);
        memcpy(x27.at, x26.field, sizeof x27.at);
        x6.tag = UINT8_C(1);
        memcpy(x6.v1_f1, x27.at, sizeof x6.v1_f1);
        x8 = x8 + UINT64_C(1);
    }
    return x6;
}

/* leg_field::field_of */
NOT_IN_LINE HanjolumBuildAnswer leg_field__field_of(slice_const_uint8_t x1, uint64_t x2, route__Target x3)
{
    uint64_t x4, x8, x10;
    const uint8_t *x5, *x9;
    HanjolumIntegrationField x6;
    core__result__Result_5 x7;
    x4 = x2 * UINT64_C(100);
    x8 = x4 + UINT64_C(100);
    x9 = part(x1.at, x4);
    x10 = x8 - x4;
    x7 = core__convert__lends__RefArrayTryFromRefSlice__try_from((slice_const_uint8_t){ .at = x9, .length = x10 });
    x5 = core__result__Result__unwrap(x7);
    x6 = integration_init__start(x5, x3);
    return integration_build__build_with_positions(x5, x6);
}

/* leg_field::field_at */
NOT_IN_LINE HanjolumBuildAnswer leg_field__field_at(slice_const_uint8_t x1, slice_const_uint8_t x2, bool x3, uint64_t x4)
{
    core__option__Option_10 x5;
    const uint8_t *x6;
    route__Target x7;
    tuple_of_2 x9;
    slice_const_uint8_t x13;
    core__option__Option_4 x14;
    route__RouteStep x16;
    x5 = leg_field__cells_before(x1, x2, x3, x4);
    x9 = core__simd__chunks__slice_T__as_chunks(x2);
    x6 = x9.f0.at + (x4 * UINT64_C(8));
    x13 = (slice_const_uint8_t){ .at = x6, .length = UINT64_C(8) };
    x14 = core__option__Option__as_ref(&x5);
    x7 = leg_counting__leg_target(x13, x3, x14);
    x16 = route__RouteStep__new((slice_const_uint8_t){ .at = x6, .length = UINT64_C(8) });
    return leg_field__field_of(x1, x16.f0, x7);
}

/* leg_field::field_by_sight */
NOT_IN_LINE HanjolumBuildAnswer leg_field__field_by_sight(slice_const_uint8_t x1, slice_const_uint8_t x2, bool x3, uint64_t x4)
{
    core__result__Result x6;
    HanjolumBuildAnswer x7;
    uint8_t x8;
    x6 = leg_field__number_by_sight(x1, x2, x3, x4);
    switch (x6.tag) {
    case 0:
        x7 = leg_field__field_at(x1, x2, x3, x4);
        break;
    default:
        x8 = refusals__Refusal__number(x6.v1_f1);
        x7 = integration_field__refused(x8);
        break;
    }
    return x7;
}

/* leg_field::leg_field */
NOT_IN_LINE HanjolumBuildAnswer leg_field__leg_field(slice_const_uint8_t x1, slice_const_uint8_t x2, uint64_t x3)
{
    return leg_field__field_by_sight(x1, x2, true, x3);
}

/* hanjolum::hanjolum_leg_field */
HanjolumBuildAnswer hanjolum_leg_field(
    const uint8_t *floor, size_t floor_length, const uint8_t *steps, size_t steps_length, uint64_t place)
{
    slice_const_uint8_t x1 = { floor, floor_length };
    slice_const_uint8_t x2 = { steps, steps_length };
    return leg_field__leg_field(x1, x2, place);
}

/* leg_field::leg_field_without_sight */
NOT_IN_LINE HanjolumBuildAnswer leg_field__leg_field_without_sight(slice_const_uint8_t x1, slice_const_uint8_t x2, uint64_t x3)
{
    return leg_field__field_by_sight(x1, x2, false, x3);
}

/* hanjolum::hanjolum_leg_field_without_sight */
HanjolumBuildAnswer hanjolum_leg_field_without_sight(
    const uint8_t *floor, size_t floor_length, const uint8_t *steps, size_t steps_length, uint64_t place)
{
    slice_const_uint8_t x1 = { floor, floor_length };
    slice_const_uint8_t x2 = { steps, steps_length };
    return leg_field__leg_field_without_sight(x1, x2, place);
}

/* leg_moves::accepted_sheet */
static inline core__result__Result_7 leg_moves__accepted_sheet(slice_const_uint8_t x1, uint8_t x2, uint8_t x3)
{
    const uint8_t *x4;
    core__result__Result_9 x5;
    x5 = core__convert__lends__RefArrayTryFromRefSlice__try_from_3(x1);
    switch (x5.tag) {
    case 0:
        x4 = x5.v0_f1;
        break;
    default:
        return (core__result__Result_7){ .tag = UINT8_C(1), .v1_f1 = (refusals__Refusal){ .tag = UINT8_C(1) } };
    }
    if (UINT8_C(63) < x2) {
        return (core__result__Result_7){ .tag = UINT8_C(1), .v1_f1 = (refusals__Refusal){ .tag = UINT8_C(3) } };
    }
    if (UINT8_C(99) < x3) {
        return (core__result__Result_7){ .tag = UINT8_C(1), .v1_f1 = (refusals__Refusal){ .tag = UINT8_C(4) } };
    }
    return (core__result__Result_7){ .tag = UINT8_C(0), .v0_f1 = x4 };
}

/* leg_moves::spot::Spot::place_of */
static inline leg_moves__spot__Spot leg_moves__spot__Spot__place_of(uint8_t x1, uint8_t x2)
{
    uint64_t x3, x4, x6, x8, x10;
    x3 = core__convert__UsizeFromU8__from(x1);
    x4 = core__convert__UsizeFromU8__from(x2);
    x6 = (x3 % UINT64_C(8)) * UINT64_C(10);
    x8 = x6 + (x4 % UINT64_C(10));
    x10 = (x3 / UINT64_C(8)) * UINT64_C(10);
    return (leg_moves__spot__Spot){ .f0 = x8, .f1 = x10 + (x4 / UINT64_C(10)) };
}

/* leg_moves::spot::Spot::sector */
static inline uint8_t leg_moves__spot__Spot__sector(leg_moves__spot__Spot x1)
{
    uint64_t x4;
    x4 = (x1.f1 / UINT64_C(10)) * UINT64_C(8);
    return (uint8_t)(x4 + (x1.f0 / UINT64_C(10)));
}

/* leg_moves::spot::Spot::cell */
static inline uint8_t leg_moves__spot__Spot__cell(leg_moves__spot__Spot x1)
{
    uint64_t x4;
    x4 = (x1.f1 % UINT64_C(10)) * UINT64_C(10);
    return (uint8_t)(x4 + (x1.f0 % UINT64_C(10)));
}

/* leg_moves::spot::Spot::index */
static inline uint64_t leg_moves__spot__Spot__index(leg_moves__spot__Spot x1)
{
    uint64_t x2, x4, x5;
    uint8_t x3, x6;
    x3 = leg_moves__spot__Spot__sector(x1);
    x2 = core__convert__UsizeFromU8__from(x3);
    x4 = x2 * UINT64_C(100);
    x6 = leg_moves__spot__Spot__cell(x1);
    x5 = core__convert__UsizeFromU8__from(x6);
    return x4 + x5;
}

/* leg_moves::byte_at */
static inline uint8_t leg_moves__byte_at(const uint8_t *x1, leg_moves__spot__Spot x2)
{
    uint64_t x3;
    x3 = leg_moves__spot__Spot__index(x2);
    return *(x1 + x3);
}

/* leg_moves::spot::Spot::led_by */
static inline core__option__Option_7 leg_moves__spot__Spot__led_by(leg_moves__spot__Spot x1, uint8_t x2)
{
    utilities__CompassDir x3;
    utilities__Differences x4;
    uint64_t x5, x6, x14;
    bool x7;
    x3 = flow_bits__get_compass_dir_from_bits(x2);
    x7 = utilities__CompassDir__points(x3);
    if (!x7) {
        return (core__option__Option_7){ .tag = UINT8_C(0) };
    }
    x4 = utilities__CompassDir__differences(x3);
    x5 = signed_sum(x1.f0, x4.f0);
    x6 = signed_sum(x1.f1, x4.f1);
    if (signed_at_most(UINT64_C(0), x5)) {
        if (signed_at_most(x5, UINT64_C(79))) {
            if (signed_at_most(UINT64_C(0), x6)) {
                if (signed_at_most(x6, UINT64_C(79))) {
                    x14 = x5;
                    return (core__option__Option_7){ .tag = UINT8_C(1), .v1_f1 = (leg_moves__spot__Spot){ .f0 = x14, .f1 = x6 } };
                }
            }
        }
    }
    return (core__option__Option_7){ .tag = UINT8_C(0) };
}

/* leg_moves::move_from */
static inline core__option__Option_7 leg_moves__move_from(const uint8_t *x1, leg_moves__spot__Spot x2)
{
    uint8_t x3;
    x3 = leg_moves__byte_at(x1, x2);
    return leg_moves__spot__Spot__led_by(x2, x3);
}

/* leg_moves::Outcome::number */
static inline uint8_t leg_moves__Outcome__number(leg_moves__Outcome x1)
{
    uint8_t x2;
    switch (x1.tag) {
    case 0:
        x2 = UINT8_C(0);
        break;
    case 1:
        x2 = UINT8_C(1);
        break;
    case 2:
        x2 = UINT8_C(2);
        break;
    case 3:
        x2 = UINT8_C(3);
        break;
    default:
        x2 = UINT8_C(4);
        break;
    }
    return x2;
}

/* leg_moves::accepted_move */
IN_LINE HanjolumMove leg_moves__accepted_move(leg_moves__Outcome x1, leg_moves__spot__Spot x2)
{
    uint8_t x3, x4, x5;
    x3 = leg_moves__Outcome__number(x1);
    x4 = leg_moves__spot__Spot__sector(x2);
    x5 = leg_moves__spot__Spot__cell(x2);
    return (HanjolumMove){ .number = UINT8_C(0), .outcome = x3, .sector = x4, .cell = x5 };
}

/* leg_moves::still_outcome */
static inline leg_moves__Outcome leg_moves__still_outcome(uint8_t x1)
{
    if (flow_bits__is_goal(x1)) {
        return (leg_moves__Outcome){ .tag = UINT8_C(2) };
    }
    if (flow_bits__has_line_of_sight(x1)) {
        return (leg_moves__Outcome){ .tag = UINT8_C(3) };
    }
    return (leg_moves__Outcome){ .tag = UINT8_C(0) };
}

/* leg_moves::moved_from */
static inline HanjolumMove leg_moves__moved_from(const uint8_t *x1, leg_moves__spot__Spot x2)
{
    leg_moves__spot__Spot x3;
    core__option__Option_7 x4;
    HanjolumMove x5;
    leg_moves__Outcome x7;
    uint8_t x8;
    x4 = leg_moves__move_from(x1, x2);
    switch (x4.tag) {
    case 1:
        x3 = x4.v1_f1;
        x5 = leg_moves__accepted_move((leg_moves__Outcome){ .tag = UINT8_C(1) }, x3);
        break;
    default:
        x8 = leg_moves__byte_at(x1, x2);
        x7 = leg_moves__still_outcome(x8);
        x5 = leg_moves__accepted_move(x7, x2);
        break;
    }
    return x5;
}

/* leg_moves::next_move */
static inline HanjolumMove leg_moves__next_move(slice_const_uint8_t x1, uint8_t x2, uint8_t x3)
{
    const uint8_t *x4;
    core__result__Result_7 x6;
    HanjolumMove x7;
    leg_moves__spot__Spot x8;
    uint8_t x9;
    x6 = leg_moves__accepted_sheet(x1, x2, x3);
    switch (x6.tag) {
    case 0:
        x4 = x6.v0_f1;
        x8 = leg_moves__spot__Spot__place_of(x2, x3);
        x7 = leg_moves__moved_from(x4, x8);
        break;
    default:
        x9 = refusals__Refusal__number(x6.v1_f1);
        x7 = (HanjolumMove){ .number = x9, .outcome = UINT8_C(0), .sector = UINT8_C(0), .cell = UINT8_C(0) };
        break;
    }
    return x7;
}

/* hanjolum::hanjolum_move */
HanjolumMove hanjolum_move(const uint8_t *sheet, size_t sheet_length, uint8_t sector, uint8_t cell)
{
    slice_const_uint8_t x1 = { sheet, sheet_length };
    return leg_moves__next_move(x1, sector, cell);
}

/* leg_moves::stood_at */
IN_LINE HanjolumWay leg_moves__stood_at(leg_moves__Outcome x1, uint16_t x2, leg_moves__spot__Spot x3)
{
    uint8_t x4, x5, x6;
    x4 = leg_moves__Outcome__number(x1);
    x5 = leg_moves__spot__Spot__sector(x3);
    x6 = leg_moves__spot__Spot__cell(x3);
    return (HanjolumWay){ .number = UINT8_C(0), .outcome = x4, .sector = x5, .cell = x6, .moves = x2 };
}

/* leg_moves::way_from */
static inline HanjolumWay leg_moves__way_from(const uint8_t *x1, leg_moves__spot__Spot x2)
{
    leg_moves__spot__Spot x3, x5;
    uint16_t x4;
    core__option__Option_7 x7;
    leg_moves__Outcome x8;
    uint8_t x9;
    x3 = x2;
    x4 = UINT16_C(0);
    while (x4 < UINT16_C(6400)) {
        x7 = leg_moves__move_from(x1, x3);
        switch (x7.tag) {
        case 1:
            x5 = x7.v1_f1;
            break;
        default:
            x9 = leg_moves__byte_at(x1, x3);
            x8 = leg_moves__still_outcome(x9);
            return leg_moves__stood_at(x8, x4, x3);
        }
        x3 = x5;
        x4 = (uint16_t)((uint32_t)x4 + UINT32_C(1));
    }
    return leg_moves__stood_at((leg_moves__Outcome){ .tag = UINT8_C(4) }, UINT16_C(0), x2);
}

/* leg_moves::way */
static inline HanjolumWay leg_moves__way(slice_const_uint8_t x1, uint8_t x2, uint8_t x3)
{
    const uint8_t *x4;
    core__result__Result_7 x6;
    HanjolumWay x7;
    leg_moves__spot__Spot x8;
    uint8_t x9;
    x6 = leg_moves__accepted_sheet(x1, x2, x3);
    switch (x6.tag) {
    case 0:
        x4 = x6.v0_f1;
        x8 = leg_moves__spot__Spot__place_of(x2, x3);
        x7 = leg_moves__way_from(x4, x8);
        break;
    default:
        x9 = refusals__Refusal__number(x6.v1_f1);
        x7 = (HanjolumWay){ .number = x9, .outcome = UINT8_C(0), .sector = UINT8_C(0), .cell = UINT8_C(0), .moves = UINT16_C(0) };
        break;
    }
    return x7;
}

/* hanjolum::hanjolum_way */
HanjolumWay hanjolum_way(const uint8_t *sheet, size_t sheet_length, uint8_t sector, uint8_t cell)
{
    slice_const_uint8_t x1 = { sheet, sheet_length };
    return leg_moves__way(x1, sector, cell);
}

/* leg_writer::write_number */
static inline core__result__Result leg_writer__write_number(slice_const_uint8_t x1, uint64_t x2)
{
    if (step_list__is_no_step_list(x1)) {
        return (core__result__Result){ .tag = UINT8_C(1), .v1_f1 = (refusals__Refusal){ .tag = UINT8_C(2) } };
    }
    if (x2 != (UINT64_C(6) + x1.length)) {
        return (core__result__Result){ .tag = UINT8_C(1), .v1_f1 = (refusals__Refusal){ .tag = UINT8_C(1) } };
    }
    return (core__result__Result){ .tag = UINT8_C(0) };
}

/* core::ptr::copy_drop::copy_bits at u8 */
IN_LINE void core__ptr__copy_drop__copy_bits(const uint8_t *x1, uint8_t *x2, uint64_t x3)
{
    uint64_t x4;
    uint8_t *x7;
    x4 = UINT64_C(0);
    while (x4 < x3) {
        x7 = x2 + (x4 * UINT64_C(1));
        *x7 = *(x1 + (x4 * UINT64_C(1)));
        x4 = x4 + UINT64_C(1);
    }
}

/* core::slots::Slots::copy_in at u8 */
IN_LINE void core__slots__Slots__copy_in(core__slots__Slots *x1, uint64_t x2, slice_const_uint8_t x3)
{
    const uint8_t *x5;
    uint8_t *x6, *x8;
    x5 = x3.at;
    x6 = x1->f0;
    x8 = part_to_write(x6, x2 * UINT64_C(1));
    core__ptr__copy_drop__copy_bits(x5, x8, x3.length);
}

/* core::slice::edits::copy_over at u8 */
IN_LINE tuple_of_3 core__slice__edits__copy_over(core__slots__Slots x1, slice_const_uint8_t x2)
{
    core__slots__Slots x4;
    x4 = x1;
    core__slots__Slots__copy_in(&x4, UINT64_C(0), x2);
    return (tuple_of_3){ .f0 = x4 };
}

/* core::core++slice++edits++copy_over+FnOnce::call_once at u8 */
IN_LINE tuple_of_3 core__core__slice__edits__copy_over_FnOnce__call_once(core__slots__Slots x1, slice_const_uint8_t x2)
{
    return core__slice__edits__copy_over(x1, x2);
}

/* core::slots::lends::with_slots at u8, (), &[u8], (), () */
IN_LINE void core__slots__lends__with_slots(slice_uint8_t x1, slice_const_uint8_t x2)
{
    uint64_t x5;
    uint8_t *x6;
    core__slots__Slots x14;
    x5 = x1.length;
    x6 = x1.at;
    x14 = (core__slots__Slots){ .f0 = x6, .f1 = x5 };
    core__core__slice__edits__copy_over_FnOnce__call_once(x14, x2);
}

/* core::slice::edits::slice+T::copy_from_slice at u8 */
IN_LINE void core__slice__edits__slice_T__copy_from_slice(slice_uint8_t x1, slice_const_uint8_t x2)
{
    core__slots__lends__with_slots((slice_uint8_t){ .at = x1.at, .length = x1.length }, x2);
}

/* leg_writer::put_head */
static inline void leg_writer__put_head(slice_uint8_t x1, uint8_t x2)
{
    slice_uint8_t x5;
    const uint8_t *x7;
    slice_const_uint8_t x8;
    x5 = (slice_uint8_t){ .at = x1.at, .length = UINT64_C(5) };
    x7 = leg_writer__put_head__lent_2;
    x8.at = x7;
    x8.length = UINT64_C(5);
    core__slice__edits__slice_T__copy_from_slice(x5, x8);
    *(x1.at + UINT64_C(5)) = x2;
}

/* leg_writer::put_steps */
static inline void leg_writer__put_steps(slice_const_uint8_t x1, slice_uint8_t x2)
{
    uint64_t x3, x4;
    uint8_t x7;
    x3 = UINT64_C(0);
    x4 = x1.length;
    while (x3 < x4) {
        x7 = *(x1.at + x3);
        *(x2.at + (UINT64_C(6) + x3)) = x7;
        x3 = x3 + UINT64_C(1);
    }
}

/* leg_writer::write */
static inline core__result__Result leg_writer__write(slice_const_uint8_t x1, slice_uint8_t x2)
{
    uint64_t x5;
    core__ops__ControlFlow x6;
    core__result__Result x7;
    slice_uint8_t x11;
    x7 = leg_writer__write_number(x1, x2.length);
    x6 = core__result__ResultTry__branch(x7);
    switch (x6.tag) {
    case 0:
        break;
    default:
        return core__result__ResultFromResidualErrResidual__from_residual(x6.v1_f1);
    }
    x5 = x1.length / UINT64_C(8);
    x11 = (slice_uint8_t){ .at = x2.at, .length = x2.length };
    leg_writer__put_head(x11, (uint8_t)x5);
    leg_writer__put_steps(x1, (slice_uint8_t){ .at = x2.at, .length = x2.length });
    return (core__result__Result){ .tag = UINT8_C(0) };
}

/* hanjolum::hanjolum_leg_file_write */
uint8_t hanjolum_leg_file_write(const uint8_t *steps, size_t steps_length, uint8_t *file, size_t file_length)
{
    slice_const_uint8_t x1 = { steps, steps_length };
    slice_uint8_t x2 = { file, file_length };
    core__result__Result x3;
    x3 = leg_writer__write(x1, (slice_uint8_t){ .at = x2.at, .length = x2.length });
    return refusals__number(x3);
}

/* core::mem::size_of_param at u8 */
IN_LINE uint64_t core__mem__size_of_param(void)
{
    return UINT64_C(1);
}

/* core::slice::scan::group at u8 */
IN_LINE uint64_t core__slice__scan__group(void)
{
    uint64_t x1, x4, x8;
    x1 = core__mem__size_of_param();
    x4 = UINT64_C(32) * (uint64_t)(x1 == UINT64_C(1));
    x8 = x4 + (UINT64_C(16) * (uint64_t)(x1 == UINT64_C(2)));
    return x8 + (UINT64_C(8) * (uint64_t)(x1 == UINT64_C(4)));
}

/* core::cmp::numbers::U8PartialEq::eq */
IN_LINE bool core__cmp__numbers__U8PartialEq__eq(const uint8_t *x1, const uint8_t *x2)
{
    uint8_t x3;
    x3 = *x1;
    return x3 == *x2;
}

/* core::cmp::slices::ElementMismatchPlaceTest::at at u8 */
IN_LINE bool core__cmp__slices__ElementMismatchPlaceTest__at(const core__cmp__slices__ElementMismatch *x1, uint64_t x2)
{
    slice_const_uint8_t x3, x4, x5, x6;
    bool x7;
    const uint8_t *x9, *x10, *x12;
    x5 = x1->f0;
    x6 = x1->f1;
    x3 = x5;
    x4 = x6;
    x9 = part(x3.at, x2 * UINT64_C(1));
    x10 = x9;
    x12 = part(x4.at, x2 * UINT64_C(1));
    x7 = core__cmp__numbers__U8PartialEq__eq(x10, x12);
    return !x7;
}

/* core::slice::scan::first_by_one at core::cmp::slices::ElementMismatch<u8> */
IN_LINE uint64_t core__slice__scan__first_by_one(const core__cmp__slices__ElementMismatch *x1, uint64_t x2, uint64_t x3)
{
    uint64_t x4;
    x4 = x2;
    while (x4 < x3) {
        if (core__cmp__slices__ElementMismatchPlaceTest__at(x1, x4)) {
            return x4;
        }
        x4 = x4 + UINT64_C(1);
    }
    return x3;
}

/* core::slice::scan::any_in_turn at core::cmp::slices::ElementMismatch<u8> */
IN_LINE bool core__slice__scan__any_in_turn(const core__cmp__slices__ElementMismatch *x1, uint64_t x2)
{
    uint64_t x3, x4, x8;
    x3 = UINT64_C(0);
    for (;;) {
        x4 = x2 - x3;
        if (!(UINT64_C(4) <= x4)) {
            break;
        }
        x4 = core__slice__scan__first_by_one(x1, x3, x3 + UINT64_C(4));
        if (x4 < (x3 + UINT64_C(4))) {
            return true;
        }
        x3 = x3 + UINT64_C(4);
    }
    x8 = core__slice__scan__first_by_one(x1, x3, x2);
    return x8 < x2;
}

/* core::slice::scan::any_in_run at core::cmp::slices::ElementMismatch<u8> */
IN_LINE bool core__slice__scan__any_in_run(const core__cmp__slices__ElementMismatch *x1, uint64_t x2, uint64_t x3)
{
    bool x4, x6;
    uint64_t x5;
    x4 = false;
    x5 = UINT64_C(0);
    for (;;) {
        x6 = x5 < x3;
        if (!x6) {
            break;
        }
        x6 = core__cmp__slices__ElementMismatchPlaceTest__at(x1, x2 + x5);
        x4 = x4 | x6;
        x5 = x5 + UINT64_C(1);
    }
    return x4;
}

/* core::slice::scan::any_in_three at core::cmp::slices::ElementMismatch<u8> */
IN_LINE bool core__slice__scan__any_in_three(const core__cmp__slices__ElementMismatch *x1, uint64_t x2)
{
    bool x3, x4, x6, x7;
    x3 = core__slice__scan__any_in_run(x1, UINT64_C(0), UINT64_C(1));
    x4 = core__slice__scan__any_in_run(x1, x2 / UINT64_C(2), UINT64_C(1));
    x6 = x3 | x4;
    x7 = core__slice__scan__any_in_run(x1, x2 - UINT64_C(1), UINT64_C(1));
    return x6 | x7;
}

/* core::slice::scan::any_in_ends at core::cmp::slices::ElementMismatch<u8> */
IN_LINE bool core__slice__scan__any_in_ends(const core__cmp__slices__ElementMismatch *x1, uint64_t x2, uint64_t x3)
{
    bool x4, x5;
    x4 = core__slice__scan__any_in_run(x1, UINT64_C(0), x3);
    x5 = core__slice__scan__any_in_run(x1, x2 - x3, x3);
    return x4 | x5;
}

/* core::slice::scan::any_in_quarters at core::cmp::slices::ElementMismatch<u8> */
IN_LINE bool core__slice__scan__any_in_quarters(const core__cmp__slices__ElementMismatch *x1, uint64_t x2, uint64_t x3)
{
    uint64_t x4, x7, x10;
    bool x5, x6, x8, x9, x12, x13;
    x4 = x2 - x3;
    x5 = core__slice__scan__any_in_run(x1, UINT64_C(0), x3);
    x7 = core__int__usize__min(x3, x4);
    x6 = core__slice__scan__any_in_run(x1, x7, x3);
    x8 = x5 | x6;
    x10 = core__int__usize__min(UINT64_C(2) * x3, x4);
    x9 = core__slice__scan__any_in_run(x1, x10, x3);
    x12 = x8 | x9;
    x13 = core__slice__scan__any_in_run(x1, x4, x3);
    return x12 | x13;
}

/* core::slice::scan::skip_groups at core::cmp::slices::ElementMismatch<u8> */
IN_LINE uint64_t core__slice__scan__skip_groups(
    const core__cmp__slices__ElementMismatch *x1, uint64_t x2, uint64_t x3, uint64_t x4)
{
    uint64_t x5;
    bool x9;
    x5 = x2;
    for (;;) {
        if (UINT64_C(0) < x4) {
            if (x4 <= (x3 - x5)) {
                x9 = core__slice__scan__any_in_run(x1, x5, x4);
                if (!!x9) {
                    break;
                }
            } else {
                break;
            }
        } else {
            break;
        }
        x5 = x5 + x4;
    }
    return x5;
}

/* core::slice::scan::any_by_groups at core::cmp::slices::ElementMismatch<u8> */
IN_LINE bool core__slice__scan__any_by_groups(const core__cmp__slices__ElementMismatch *x1, uint64_t x2, uint64_t x3)
{
    uint64_t x4, x5;
    bool x8;
    if (x3 < UINT64_C(8)) {
        return core__slice__scan__any_in_turn(x1, x2);
    }
    if (x2 < (x3 / UINT64_C(8))) {
        x8 = UINT64_C(0) < x2;
        if (x8) {
            x8 = core__slice__scan__any_in_three(x1, x2);
        }
        return x8;
    }
    if (x2 <= (x3 / UINT64_C(4))) {
        return core__slice__scan__any_in_ends(x1, x2, x3 / UINT64_C(8));
    }
    if (x2 <= x3) {
        return core__slice__scan__any_in_quarters(x1, x2, x3 / UINT64_C(4));
    }
    if (x2 <= (UINT64_C(2) * x3)) {
        return core__slice__scan__any_in_ends(x1, x2, x3);
    }
    x4 = core__slice__scan__skip_groups(x1, UINT64_C(0), x2, UINT64_C(2) * x3);
    x5 = core__slice__scan__skip_groups(x1, x4, x2, x3);
    if (x3 <= (x2 - x5)) {
        return true;
    }
    return core__slice__scan__any_in_run(x1, x2 - x3, x3);
}

/* core::cmp::slices::all_equal at u8 */
IN_LINE bool core__cmp__slices__all_equal(slice_const_uint8_t x1, slice_const_uint8_t x2)
{
    uint64_t x3, x4;
    bool x5;
    core__cmp__slices__ElementMismatch x7;
    const core__cmp__slices__ElementMismatch *x8;
    x3 = x1.length;
    x4 = x2.length;
    x5 = x3 != x4;
    if (x5) {
        return false;
    }
    x7 = (core__cmp__slices__ElementMismatch){ .f0 = x1, .f1 = x2 };
    x8 = &x7;
    x3 = x1.length;
    x4 = core__slice__scan__group();
    x5 = core__slice__scan__any_by_groups(x8, x3, x4);
    return !x5;
}

/* core::cmp::slices::parts_equal at u8 */
IN_LINE bool core__cmp__slices__parts_equal(slice_const_uint8_t x1, slice_const_uint8_t x2)
{
    return core__cmp__slices__all_equal(x1, x2);
}

/* core::slice::reads::slice+T::starts_with at u8 */
IN_LINE bool core__slice__reads__slice_T__starts_with(slice_const_uint8_t x1, slice_const_uint8_t x2)
{
    uint64_t x4;
    x4 = x1.length;
    if (x4 < x2.length) {
        return false;
    }
    x4 = x2.length;
    return core__cmp__slices__parts_equal(x2, (slice_const_uint8_t){ .at = x1.at, .length = x4 });
}

/* leg_reader::is_marked */
static inline bool leg_reader__is_marked(slice_const_uint8_t x1)
{
    const uint8_t *x3;
    slice_const_uint8_t x4;
    x3 = leg_reader__is_marked__lent_1;
    x4.at = x3;
    x4.length = UINT64_C(3);
    return core__slice__reads__slice_T__starts_with(x1, x4);
}

/* core::int::u16::from_le_bytes */
IN_LINE uint16_t core__int__u16__from_le_bytes(array_2_uint8_t x1)
{
    array_2_uint8_t x2;
    uint16_t x6;
    x2 = x1;
    x6 = (uint16_t)*(x2.at + UINT64_C(0));
    return (uint16_t)((uint32_t)x6 + (uint32_t)(uint16_t)((uint32_t)(uint16_t)*(x2.at + UINT64_C(1)) * UINT32_C(256)));
}

/* leg_reader::version */
static inline uint16_t leg_reader__version(slice_const_uint8_t x1)
{
    uint8_t x3, x5;
    array_2_uint8_t x6;
    x3 = *(x1.at + UINT64_C(3));
    x5 = *(x1.at + UINT64_C(4));
    x6 = (array_2_uint8_t){ { x3, x5 } };
    return core__int__u16__from_le_bytes(x6);
}

/* leg_reader::number */
static inline core__result__Result leg_reader__number(slice_const_uint8_t x1)
{
    uint64_t x2, x14;
    bool x6;
    uint16_t x7;
    if (!(x1.length < UINT64_C(6))) {
        x6 = leg_reader__is_marked(x1);
        if (!!x6) {
            x7 = leg_reader__version(x1);
            if (!(x7 != UINT16_C(1))) {
                goto out2;
            }
        }
    }
    return (core__result__Result){ .tag = UINT8_C(1), .v1_f1 = (refusals__Refusal){ .tag = UINT8_C(13) } };
    goto out1;
    out2:;
    out1:;
    x2 = core__convert__UsizeFromU8__from(*(x1.at + UINT64_C(5)));
    if (!(x2 == UINT64_C(0))) {
        if (!(UINT64_C(16) < x2)) {
            x14 = x1.length;
            if (!(x14 != (UINT64_C(6) + (UINT64_C(8) * x2)))) {
                goto out6;
            }
        }
    }
    return (core__result__Result){ .tag = UINT8_C(1), .v1_f1 = (refusals__Refusal){ .tag = UINT8_C(13) } };
    goto out5;
    out6:;
    out5:;
    return (core__result__Result){ .tag = UINT8_C(0) };
}

/* leg_reader::read */
static inline slice_const_uint8_t leg_reader__read(slice_const_uint8_t x1)
{
    slice_const_uint8_t x3;
    const uint8_t *x4;
    uint64_t x5;
    switch (leg_reader__number(x1).tag) {
    case 0:
        x4 = part(x1.at, UINT64_C(6));
        x5 = x1.length - UINT64_C(6);
        x3 = (slice_const_uint8_t){ .at = x4, .length = x5 };
        break;
    default:
        x3 = (slice_const_uint8_t){ .at = x1.at, .length = UINT64_C(0) };
        break;
    }
    return x3;
}

/* leg_reader::locate */
static inline HanjolumLegFile leg_reader__locate(slice_const_uint8_t x1)
{
    uint64_t x2;
    slice_const_uint8_t x4;
    core__result__Result x5;
    HanjolumLegFile x6;
    uint8_t x7;
    x4 = leg_reader__read(x1);
    x2 = x4.length;
    x5 = leg_reader__number(x1);
    switch (x5.tag) {
    case 0:
        x6 = (HanjolumLegFile){ .number = UINT8_C(0), .start = UINT64_C(6), .length = x2 };
        break;
    default:
        x7 = refusals__Refusal__number(x5.v1_f1);
        x6 = (HanjolumLegFile){ .number = x7, .start = UINT64_C(0), .length = x2 };
        break;
    }
    return x6;
}

/* hanjolum::hanjolum_leg_file_read */
HanjolumLegFile hanjolum_leg_file_read(const uint8_t *file, size_t file_length)
{
    slice_const_uint8_t x1 = { file, file_length };
    return leg_reader__locate(x1);
}

/* practice::next_value */
static inline uint32_t practice__next_value(const uint32_t *x1, uint64_t x2)
{
    uint64_t x5, x10, x15;
    uint32_t x13;
    if (x2 < UINT64_C(55)) {
        x5 = (x2 - UINT64_C(1)) * UINT64_C(4);
        return wrapping_add_u32(*(const uint32_t *)((const uint8_t *)x1 + x5), UINT32_C(2654435769));
    }
    x10 = (x2 - UINT64_C(24)) * UINT64_C(4);
    x13 = *(const uint32_t *)((const uint8_t *)x1 + x10);
    x15 = (x2 - UINT64_C(55)) * UINT64_C(4);
    return wrapping_add_u32(x13, *(const uint32_t *)((const uint8_t *)x1 + x15));
}

/* practice::values_of */
static inline array_156_uint32_t practice__values_of(uint32_t x1)
{
    array_156_uint32_t x2;
    uint64_t x3, x9;
    uint32_t x7;
    x2 = (array_156_uint32_t){ { 0 } };
    *(uint32_t *)((uint8_t *)x2.at + UINT64_C(0)) = x1;
    x3 = UINT64_C(1);
    while (x3 < UINT64_C(156)) {
        x7 = practice__next_value(x2.at, x3);
        x9 = x3 * UINT64_C(4);
        *(uint32_t *)((uint8_t *)x2.at + x9) = x7;
        x3 = x3 + UINT64_C(1);
    }
    return x2;
}

/* practice::cost_of */
static inline uint8_t practice__cost_of(uint32_t x1)
{
    uint32_t x2;
    x2 = x1 / UINT32_C(16777216);
    if (x2 < UINT32_C(128)) {
        return UINT8_C(1);
    }
    return choose_uint8_t(x2 <= UINT32_C(191), UINT8_C(10), UINT8_C(255));
}

/* practice::fn::draw_costs::from_fn */
IN_LINE uint8_t practice__fn__draw_costs__from_fn(practice__fn__draw_costs__from_fn_Self *x1, uint64_t x2)
{
    const uint32_t *x3;
    uint64_t x5;
    x3 = x1->f0;
    x5 = (UINT64_C(55) + x2) * UINT64_C(4);
    return practice__cost_of(*(const uint32_t *)((const uint8_t *)x3 + x5));
}

/* practice::fn::draw_costs::from_fn+FnMut::call_mut */
IN_LINE uint8_t practice__fn__draw_costs__from_fn_FnMut__call_mut(practice__fn__draw_costs__from_fn_Self *x1, uint64_t x2)
{
    return practice__fn__draw_costs__from_fn(x1, x2);
}

/* core::array::CallsElements::at at u8, practice::fn::draw_costs::from_fn+Self<&[u32; 156]> */
IN_LINE uint8_t core__array__CallsElements__at(core__array__Calls *x1, uint64_t x2)
{
    return practice__fn__draw_costs__from_fn_FnMut__call_mut(&x1->f0, x2);
}

/* core::array::array_from at u8, 100, core::array::Calls<practice::fn::draw_costs::from_fn+Self<&[u32; 156]>> */
IN_LINE array_100_uint8_t core__array__array_from(core__array__Calls *x1)
{
    array_100_uint8_t x2;
    uint64_t x3, x7;
    uint8_t x6;
    x3 = UINT64_C(0);
    while (x3 < UINT64_C(100)) {
        x6 = core__array__CallsElements__at(x1, x3);
        x7 = x3 * UINT64_C(1);
        *(x2.at + x7) = x6;
        x3 = x3 + UINT64_C(1);
    }
    return x2;
}

/* core::array::from_fn at u8, 100, practice::fn::draw_costs::from_fn+Self<&[u32; 156]> */
IN_LINE array_100_uint8_t core__array__from_fn(practice__fn__draw_costs__from_fn_Self x1)
{
    core__array__Calls x4;
    x4 = (core__array__Calls){ .f0 = x1, .f1 = UINT64_C(100) };
    return core__array__array_from(&x4);
}

/* practice::draw_costs */
static inline array_100_uint8_t practice__draw_costs(const uint32_t *x1)
{
    return core__array__from_fn((practice__fn__draw_costs__from_fn_Self){ .f0 = x1 });
}

/* practice::practice_floor */
static inline HanjolumPracticeFloor practice__practice_floor(uint32_t x1)
{
    HanjolumPracticeFloor x0;
    array_156_uint32_t x2, x5;
    array_100_uint8_t x3, x6;
    uint8_t x4;
    uint64_t x12;
    x5 = practice__values_of(x1);
    x2 = x5;
    x6 = practice__draw_costs(x2.at);
    x3 = x6;
    x4 = (uint8_t)(*(const uint32_t *)((const uint8_t *)x2.at + UINT64_C(620)) % UINT32_C(100));
    x12 = core__convert__UsizeFromU8__from(x4);
    *(x3.at + x12) = UINT8_C(1);
    x6 = x3;
    memcpy(x0.costs, x6.at, sizeof x0.costs);
    x0.goal = x4;
    return x0;
}

/* hanjolum::hanjolum_practice_floor */
HanjolumPracticeFloor hanjolum_practice_floor(uint32_t seed)
{
    return practice__practice_floor(seed);
}

/* integration_init::refused */
NOT_IN_LINE HanjolumInitAnswer integration_init__refused(refusals__Refusal x1)
{
    uint8_t x2;
    HanjolumIntegrationField x3;
    x2 = refusals__Refusal__number(x1);
    x3 = integration_field__IntegrationField__zeros();
    return (HanjolumInitAnswer){ .number = x2, .field = x3 };
}

/* integration_init::init */
NOT_IN_LINE HanjolumInitAnswer integration_init__init(slice_const_uint8_t x1, slice_const_uint8_t x2)
{
    const uint8_t *x3;
    route__Target x5;
    core__result__Result_5 x6;
    core__result__Result x8;
    route__RouteStep x9;
    HanjolumIntegrationField x10;
    x6 = core__convert__lends__RefArrayTryFromRefSlice__try_from(x1);
    switch (x6.tag) {
    case 0:
        x3 = x6.v0_f1;
        break;
    default:
        return integration_init__refused((refusals__Refusal){ .tag = UINT8_C(0) });
    }
    x8 = step_numbers__step_number_on(x1, x2);
    switch (x8.tag) {
    case 1:
        return integration_init__refused(x8.v1_f1);
    default:
        break;
    }
    x9 = route__RouteStep__new(x2);
    x5 = route__RouteStep__as_target(x9);
    x10 = integration_init__start(x3, x5);
    return (HanjolumInitAnswer){ .number = UINT8_C(0), .field = x10 };
}

/* hanjolum::hanjolum_init */
HanjolumInitAnswer hanjolum_init(const uint8_t *costs, size_t costs_length, const uint8_t *step, size_t step_length)
{
    slice_const_uint8_t x1 = { costs, costs_length };
    slice_const_uint8_t x2 = { step, step_length };
    return integration_init__init(x1, x2);
}

/* core::iter::slices::slice+T::iter at u64 */
IN_LINE core__iter__slices__Iter core__iter__slices__slice_T__iter(slice_const_uint64_t x1)
{
    return (core__iter__slices__Iter){ .f0 = x1 };
}

/* core::slice::slice+T::is_empty at u64 */
IN_LINE bool core__slice__slice_T__is_empty(slice_const_uint64_t x1)
{
    return x1.length == UINT64_C(0);
}

/* core::iter::slices::IterIterator::next at u64 */
IN_LINE core__option__Option_12 core__iter__slices__IterIterator__next(core__iter__slices__Iter *x1)
{
    slice_const_uint64_t x2;
    const uint8_t *x5, *x9;
    uint64_t x6;
    x2 = x1->f0;
    if (core__slice__slice_T__is_empty(x2)) {
        return (core__option__Option_12){ .tag = UINT8_C(0) };
    }
    x5 = part((const uint8_t *)x2.at, UINT64_C(1) * UINT64_C(8));
    x6 = x2.length - UINT64_C(1);
    x1->f0 = (slice_const_uint64_t){ .at = (const uint64_t *)x5, .length = x6 };
    x9 = part((const uint8_t *)x2.at, UINT64_C(0) * UINT64_C(8));
    return (core__option__Option_12){ .tag = UINT8_C(1), .v1_f1 = (const uint64_t *)x9 };
}

/* integration_build::fn::corners_inside::all */
IN_LINE bool integration_build__fn__corners_inside__all(const uint64_t *x1)
{
    return *x1 < UINT64_C(100);
}

/* integration_build::fn::corners_inside::all+FnMut::call_mut */
IN_LINE bool integration_build__fn__corners_inside__all_FnMut__call_mut(const uint64_t *x1)
{
    return integration_build__fn__corners_inside__all(x1);
}

/* core::iter::base::Iterator::all at core::iter::slices::Iter<u64>, &u64, integration_build::fn::corners_inside::all+Self */
IN_LINE bool core__iter__base__Iterator__all(core__iter__slices__Iter *x1)
{
    core__option__Option_12 x5;
    bool x7;
    for (;;) {
        x5 = core__iter__slices__IterIterator__next(x1);
        switch (x5.tag) {
        case 1:
            x7 = integration_build__fn__corners_inside__all_FnMut__call_mut(x5.v1_f1);
            if (!x7) {
                return false;
            }
            break;
        default:
            goto out1;
        }
    }
    out1:;
    return true;
}

/* integration_build::corners_inside */
static inline bool integration_build__corners_inside(slice_const_uint64_t x1)
{
    core__iter__slices__Iter x3;
    x3 = core__iter__slices__slice_T__iter(x1);
    return core__iter__base__Iterator__all(&x3);
}

/* integration_build::buildable */
static inline core__result__Result_3 integration_build__buildable(slice_const_uint8_t x1, const HanjolumIntegrationField *x2)
{
    const uint8_t *x3;
    uint64_t x4;
    core__result__Result_5 x5;
    x5 = core__convert__lends__RefArrayTryFromRefSlice__try_from(x1);
    switch (x5.tag) {
    case 0:
        x3 = x5.v0_f1;
        break;
    default:
        return (core__result__Result_3){ .tag = UINT8_C(1), .v1_f1 = (refusals__Refusal){ .tag = UINT8_C(0) } };
    }
    x4 = x2->count;
    if (x4 <= UINT64_C(100)) {
        if (integration_build__corners_inside((slice_const_uint64_t){ .at = x2->los_corners, .length = x4 })) {
            return (core__result__Result_3){ .tag = UINT8_C(0), .v0_f1 = x3 };
        }
    }
    return (core__result__Result_3){ .tag = UINT8_C(1), .v1_f1 = (refusals__Refusal){ .tag = UINT8_C(10) } };
}

/* integration_build::build */
NOT_IN_LINE HanjolumBuildAnswer integration_build__build(slice_const_uint8_t x1, HanjolumIntegrationField x2)
{
    HanjolumIntegrationField x3;
    const uint8_t *x4;
    core__result__Result_3 x6;
    HanjolumBuildAnswer x8;
    uint8_t x10;
    x3 = x2;
    x6 = integration_build__buildable(x1, &x3);
    switch (x6.tag) {
    case 0:
        x4 = x6.v0_f1;
        x8 = integration_build__build_with_positions(x4, x3);
        break;
    default:
        x10 = refusals__Refusal__number(x6.v1_f1);
        x8 = integration_field__refused(x10);
        break;
    }
    return x8;
}

/* hanjolum::hanjolum_build */
HanjolumBuildAnswer hanjolum_build(const uint8_t *costs, size_t costs_length, HanjolumIntegrationField field)
{
    slice_const_uint8_t x1 = { costs, costs_length };
    return integration_build__build(x1, field);
}

/* core::result::ResultTry::branch at core::option::Option<&[u32; 100]>, refusals::Refusal */
IN_LINE core__ops__ControlFlow_2 core__result__ResultTry__branch_2(core__result__Result_4 x1)
{
    core__ops__ControlFlow_2 x4;
    switch (x1.tag) {
    case 0:
        x4 = (core__ops__ControlFlow_2){ .tag = UINT8_C(0), .v0_f1 = x1.v0_f1 };
        break;
    default:
        x4 = (core__ops__ControlFlow_2){ .tag = UINT8_C(1), .v1_f1 = (core__result__ErrResidual){ .f0 = x1.v1_f1 } };
        break;
    }
    return x4;
}

/* flow_new::new */
static inline core__result__Result flow_new__new(
    slice_const_uint8_t x1, HanjolumIntegrationField x2, core__option__Option x3, slice_uint8_t x4)
{
    uint8_t *x5;
    core__option__Option_4 x8, x22, x26;
    route__RouteStep x11;
    fields__CellList x12;
    core__option__Option_3 x13;
    core__ops__ControlFlow x17;
    core__result__Result x18;
    core__ops__ControlFlow_2 x19;
    core__result__Result_4 x20;
    route__Target x23;
    core__option__Option_5 x25;
    x13 = core__slice__chunk_mut__slice_T__as_mut_array((slice_uint8_t){ .at = x4.at, .length = x4.length });
    switch (x13.tag) {
    case 1:
        x5 = x13.v1_f1;
        break;
    default:
        return (core__result__Result){ .tag = UINT8_C(1), .v1_f1 = (refusals__Refusal){ .tag = UINT8_C(1) } };
    }
    x18 = step_numbers__step_number(x1);
    x17 = core__result__ResultTry__branch(x18);
    switch (x17.tag) {
    case 0:
        break;
    default:
        return core__result__ResultFromResidualErrResidual__from_residual(x17.v1_f1);
    }
    x20 = flow_new__of_100(x3);
    x19 = core__result__ResultTry__branch_2(x20);
    switch (x19.tag) {
    case 0:
        x22 = x19.v0_f1;
        break;
    default:
        return core__result__ResultFromResidualErrResidual__from_residual(x19.v1_f1);
    }
    x8 = x22;
    x11 = route__RouteStep__new(x1);
    x23 = route__RouteStep__as_target(x11);
    x12 = route__Target__window(x23);
    x25 = x11.f2;
    x26 = x8;
    flow_new__new_cells(x25, x12, x2, x26, x5);
    return (core__result__Result){ .tag = UINT8_C(0) };
}

/* hanjolum::hanjolum_flow_new */
uint8_t hanjolum_flow_new(
    const uint8_t *step, size_t step_length, HanjolumIntegrationField field, bool has_previous,
    const uint32_t *previous, size_t previous_length, uint8_t *sheet, size_t sheet_length)
{
    slice_const_uint8_t x1 = { step, step_length };
    slice_const_uint32_t x4 = { previous, previous_length };
    slice_uint8_t x5 = { sheet, sheet_length };
    core__result__Result x6;
    core__option__Option x7;
    x7 = core__bool__then_some(has_previous, x4);
    x6 = flow_new__new(x1, field, x7, (slice_uint8_t){ .at = x5.at, .length = x5.length });
    return refusals__number(x6);
}

/* flow_build::build */
static inline core__result__Result flow_build__build(HanjolumIntegrationField x1, slice_uint8_t x2)
{
    uint8_t *x3;
    core__option__Option_3 x4;
    x4 = core__slice__chunk_mut__slice_T__as_mut_array((slice_uint8_t){ .at = x2.at, .length = x2.length });
    switch (x4.tag) {
    case 1:
        x3 = x4.v1_f1;
        break;
    default:
        return (core__result__Result){ .tag = UINT8_C(1), .v1_f1 = (refusals__Refusal){ .tag = UINT8_C(1) } };
    }
    flow_build__build_cells(x1, x3);
    return (core__result__Result){ .tag = UINT8_C(0) };
}

/* hanjolum::hanjolum_flow_build */
uint8_t hanjolum_flow_build(HanjolumIntegrationField field, uint8_t *sheet, size_t sheet_length)
{
    slice_uint8_t x2 = { sheet, sheet_length };
    core__result__Result x3;
    x3 = flow_build__build(field, (slice_uint8_t){ .at = x2.at, .length = x2.length });
    return refusals__number(x3);
}

/* fields::FieldCell::is_inside */
static inline bool fields__FieldCell__is_inside(HanjolumFieldCell x1)
{
    uint64_t x2, x3;
    x2 = x1.column;
    x3 = x1.row;
    if (x2 < UINT64_C(10)) {
        return x3 < UINT64_C(10);
    }
    return false;
}

/* bresenham::both_inside */
static inline bool bresenham__both_inside(HanjolumFieldCell x1, HanjolumFieldCell x2)
{
    bool x3;
    x3 = fields__FieldCell__is_inside(x1);
    if (x3) {
        x3 = fields__FieldCell__is_inside(x2);
    }
    return x3;
}

/* core::array::into_iter::NonesElementsOption::at at u8 */
IN_LINE core__option__Option_8 core__array__into_iter__NonesElementsOption__at(uint64_t x1)
{
    (void)x1;
    return (core__option__Option_8){ .tag = UINT8_C(0) };
}

/* core::array::array_from at core::option::Option<u8>, 10, core::array::into_iter::Nones */
IN_LINE array_10_core__option__Option_8 core__array__array_from_4(void)
{
    array_10_core__option__Option_8 x2;
    uint64_t x3, x7;
    core__option__Option_8 x6;
    x3 = UINT64_C(0);
    UNROLL
    while (x3 < UINT64_C(10)) {
        x6 = core__array__into_iter__NonesElementsOption__at(x3);
        x7 = x3 * (uint64_t)sizeof(core__option__Option_8);
        *(core__option__Option_8 *)((uint8_t *)x2.at + x7) = x6;
        x3 = x3 + UINT64_C(1);
    }
    return x2;
}

/* core::array::slots::IntoIter::empty at u8, 10 */
IN_LINE core__array__slots__IntoIter core__array__slots__IntoIter__empty(void)
{
    array_10_core__option__Option_8 x1;
    core__array__slots__Slots x5;
    x1 = core__array__array_from_4();
    memcpy(x5.f0, x1.at, sizeof x5.f0);
    return (core__array__slots__IntoIter){ .f0 = x5, .f1 = UINT64_C(0), .f2 = UINT64_C(0) };
}

/* core::mem::manually_drop::ManuallyDrop::new at [u8; 10] */
IN_LINE core__mem__manually_drop__ManuallyDrop core__mem__manually_drop__ManuallyDrop__new(array_10_uint8_t x1)
{
    core__mem__manually_drop__ManuallyDrop x0;
    array_10_uint8_t x2;
    x2 = x1;
    memcpy(x0.f0, x2.at, sizeof x0.f0);
    return x0;
}

/* core::mem::replace at core::option::Option<u8> */
IN_LINE core__option__Option_8 core__mem__replace(core__option__Option_8 *x1, core__option__Option_8 x2)
{
    uint8_t *x3;
    core__option__Option_8 x4, x5;
    x3 = (uint8_t *)x1;
    x4 = *(const core__option__Option_8 *)x3;
    *(core__option__Option_8 *)x3 = x2;
    x5 = x4;
    return x5;
}

/* core::array::slots::Slots::put at u8, 10 */
IN_LINE core__option__Option_8 core__array__slots__Slots__put(
    core__array__slots__Slots *x1, uint64_t x2, core__option__Option_8 x3)
{
    uint64_t x4;
    uint8_t *x6;
    core__option__Option_8 *x7;
    x4 = x2 * (uint64_t)sizeof(core__option__Option_8);
    x6 = part_to_write((uint8_t *)x1->f0, x4);
    x7 = (core__option__Option_8 *)x6;
    return core__mem__replace(x7, x3);
}

/* core::array::slots::IntoIter::put at u8, 10 */
IN_LINE core__option__Option_8 core__array__slots__IntoIter__put(
    core__array__slots__IntoIter *x1, uint64_t x2, core__option__Option_8 x3)
{
    core__array__slots__Slots *x4;
    x4 = &x1->f0;
    return core__array__slots__Slots__put(x4, x2, x3);
}

/* core::array::into_iter::IntoIterTakes::take at u8, 10 */
IN_LINE void core__array__into_iter__IntoIterTakes__take(core__array__slots__IntoIter *x1, uint64_t x2, uint8_t x3)
{
    core__option__Option_8 x4;
    core__array__slots__IntoIter *x5;
    x5 = x1;
    x4 = core__array__slots__IntoIter__put(x5, x2, (core__option__Option_8){ .tag = UINT8_C(1), .v1_f1 = x3 });
    x1->f2 = x2 + UINT64_C(1);
    switch (x4.tag) {
    case 1:
        break;
    default:
        break;
    }
}

/* core::array::each::each at u8, 10, core::array::slots::IntoIter<u8, 10> */
IN_LINE void core__array__each__each(core__mem__manually_drop__ManuallyDrop x1, core__array__slots__IntoIter *x2)
{
    core__mem__manually_drop__ManuallyDrop x3;
    const uint8_t *x4;
    uint64_t x5;
    uint8_t x6, x8;
    core__array__slots__IntoIter *x12;
    x3 = x1;
    x4 = (const uint8_t *)&x3;
    x5 = UINT64_C(0);
    UNROLL
    while (x5 < UINT64_C(10)) {
        x8 = *(x4 + (x5 * UINT64_C(1)));
        x6 = x8;
        x12 = x2;
        core__array__into_iter__IntoIterTakes__take(x12, x5, x6);
        x5 = x5 + UINT64_C(1);
    }
}

/* core::array::slots::IntoIter::new at u8, 10 */
IN_LINE core__array__slots__IntoIter core__array__slots__IntoIter__new(array_10_uint8_t x1)
{
    core__array__slots__IntoIter x2;
    core__mem__manually_drop__ManuallyDrop x5;
    array_10_uint8_t x6;
    x2 = core__array__slots__IntoIter__empty();
    x6 = x1;
    x5 = core__mem__manually_drop__ManuallyDrop__new(x6);
    core__array__each__each(x5, &x2);
    return x2;
}

/* core::array::into_iter::ArrayIntoIterator::into_iter at u8, 10 */
IN_LINE core__array__slots__IntoIter core__array__into_iter__ArrayIntoIterator__into_iter(array_10_uint8_t x1)
{
    array_10_uint8_t x2;
    x2 = x1;
    return core__array__slots__IntoIter__new(x2);
}

/* core::array::into_iter::IntoIterIterator::next at u8, 10 */
IN_LINE core__option__Option_8 core__array__into_iter__IntoIterIterator__next(core__array__slots__IntoIter *x1)
{
    uint64_t x2;
    core__array__slots__IntoIter *x5;
    x2 = x1->f1;
    if (x1->f2 <= x2) {
        return (core__option__Option_8){ .tag = UINT8_C(0) };
    }
    x1->f1 = x2 + UINT64_C(1);
    x5 = x1;
    return core__array__slots__IntoIter__put(x5, x2, (core__option__Option_8){ .tag = UINT8_C(0) });
}

/* core::option::OptionTry::branch at u8 */
IN_LINE core__ops__ControlFlow_3 core__option__OptionTry__branch(core__option__Option_8 x1)
{
    core__ops__ControlFlow_3 x3;
    switch (x1.tag) {
    case 1:
        x3 = (core__ops__ControlFlow_3){ .tag = UINT8_C(0), .v0_f1 = x1.v1_f1 };
        break;
    default:
        x3 = (core__ops__ControlFlow_3){ .tag = UINT8_C(1) };
        break;
    }
    return x3;
}

/* core::option::OptionFromResidualNoValue::from_residual at fields::FieldCell */
IN_LINE core__option__Option_11 core__option__OptionFromResidualNoValue__from_residual(void)
{
    return (core__option__Option_11){ .tag = UINT8_C(0) };
}

/* bresenham::fn::told_line::map */
IN_LINE HanjolumFieldCell bresenham__fn__told_line__map(uint8_t x1)
{
    uint64_t x3;
    x3 = core__convert__UsizeFromU8__from(x1);
    return fields__FieldCell__from_index(x3);
}

/* bresenham::fn::told_line::map+FnMut::call_mut */
IN_LINE HanjolumFieldCell bresenham__fn__told_line__map_FnMut__call_mut(uint8_t x1)
{
    return bresenham__fn__told_line__map(x1);
}

/* core::iter::closures::MapIterator::next at fields::FieldCell, core::array::slots::IntoIter<u8, 10>,
 * bresenham::fn::told_line::map+Self, u8 */
IN_LINE core__option__Option_11 core__iter__closures__MapIterator__next(core__iter__closures__Map *x1)
{
    core__ops__ControlFlow_3 x5;
    core__option__Option_8 x6;
    uint8_t x8;
    HanjolumFieldCell x9;
    x6 = core__array__into_iter__IntoIterIterator__next(&x1->f0);
    x5 = core__option__OptionTry__branch(x6);
    switch (x5.tag) {
    case 0:
        x8 = x5.v0_f1;
        break;
    default:
        return core__option__OptionFromResidualNoValue__from_residual();
    }
    x9 = bresenham__fn__told_line__map_FnMut__call_mut(x8);
    return (core__option__Option_11){ .tag = UINT8_C(1), .v1_f1 = x9 };
}

/* core::array::map::NextsElementsItem::at at core::iter::closures::Map<core::array::slots::IntoIter<u8, 10>,
 * bresenham::fn::told_line::map+Self>, fields::FieldCell */
IN_LINE HanjolumFieldCell core__array__map__NextsElementsItem__at(core__array__map__Nexts *x1, uint64_t x2)
{
    core__option__Option_11 x4;
    (void)x2;
    x4 = core__iter__closures__MapIterator__next(&x1->f0);
    return x4.v1_f1;
}

/* core::array::array_from at fields::FieldCell, 10,
 * core::array::map::Nexts<core::iter::closures::Map<core::array::slots::IntoIter<u8, 10>, bresenham::fn::told_line::map+Self>> */
IN_LINE array_10_HanjolumFieldCell core__array__array_from_2(core__array__map__Nexts *x1)
{
    array_10_HanjolumFieldCell x2;
    uint64_t x3, x7;
    HanjolumFieldCell x6;
    x3 = UINT64_C(0);
    UNROLL
    while (x3 < UINT64_C(10)) {
        x6 = core__array__map__NextsElementsItem__at(x1, x3);
        x7 = x3 * (uint64_t)sizeof(HanjolumFieldCell);
        *(HanjolumFieldCell *)((uint8_t *)x2.at + x7) = x6;
        x3 = x3 + UINT64_C(1);
    }
    return x2;
}

/* core::array::map::collect_first at core::iter::closures::Map<core::array::slots::IntoIter<u8, 10>,
 * bresenham::fn::told_line::map+Self>, 10, fields::FieldCell */
IN_LINE array_10_HanjolumFieldCell core__array__map__collect_first(core__iter__closures__Map x1)
{
    core__array__map__Nexts x4;
    x4 = (core__array__map__Nexts){ .f0 = x1, .f1 = UINT64_C(10) };
    return core__array__array_from_2(&x4);
}

/* core::array::map::array+N+T::map at u8, 10, fields::FieldCell, bresenham::fn::told_line::map+Self */
IN_LINE array_10_HanjolumFieldCell core__array__map__array_N_T__map(array_10_uint8_t x1)
{
    core__array__slots__IntoIter x3;
    array_10_uint8_t x4;
    x4 = x1;
    x3 = core__array__into_iter__ArrayIntoIterator__into_iter(x4);
    return core__array__map__collect_first((core__iter__closures__Map){ .f0 = x3 });
}

/* bresenham::told_line */
IN_LINE HanjolumLine bresenham__told_line(core__result__Result_6 x1)
{
    fields__CellList x2;
    HanjolumLine x4;
    array_10_HanjolumFieldCell x5, x10;
    array_10_uint8_t x6;
    uint8_t x8;
    HanjolumFieldCell x9;
    switch (x1.tag) {
    case 0:
        x2 = x1.v0_f1;
        memcpy(x6.at, x2.f0, sizeof x6.at);
        x5 = core__array__map__array_N_T__map(x6);
        x4.number = UINT8_C(0);
        memcpy(x4.cells, x5.at, sizeof x4.cells);
        x4.count = x2.f1;
        break;
    default:
        x8 = refusals__Refusal__number(x1.v1_f1);
        x9 = (HanjolumFieldCell){ .column = UINT64_C(0), .row = UINT64_C(0) };
        for (uint32_t k1 = 0; k1 < 10; k1++) {
            x10.at[k1] = x9;
        }
        x4.number = x8;
        memcpy(x4.cells, x10.at, sizeof x4.cells);
        x4.count = UINT64_C(0);
        break;
    }
    return x4;
}

/* bresenham::get_cells_between_points */
static inline HanjolumLine bresenham__get_cells_between_points(HanjolumFieldCell x1, HanjolumFieldCell x2)
{
    HanjolumLine x0;
    bool x3;
    fields__CellList x7;
    x3 = bresenham__both_inside(x1, x2);
    if (!x3) {
        x0 = bresenham__told_line((core__result__Result_6){ .tag = UINT8_C(1), .v1_f1 = (refusals__Refusal){ .tag = UINT8_C(12) } });
        return x0;
    }
    x7 = bresenham__draw_cells_between_points(x1, x2);
    return bresenham__told_line((core__result__Result_6){ .tag = UINT8_C(0), .v0_f1 = x7 });
}

/* hanjolum::hanjolum_line */
HanjolumLine hanjolum_line(uint64_t source_column, uint64_t source_row, uint64_t target_column, uint64_t target_row)
{
    HanjolumFieldCell x5;
    x5 = (HanjolumFieldCell){ .column = source_column, .row = source_row };
    return bresenham__get_cells_between_points(x5, (HanjolumFieldCell){ .column = target_column, .row = target_row });
}

/* bresenham::walk_alone */
static inline core__result__Result_6 bresenham__walk_alone(bool x1, HanjolumFieldCell x2, HanjolumFieldCell x3)
{
    bool x4;
    uint64_t x7, x8;
    fields__CellList x9, x10;
    x4 = bresenham__both_inside(x2, x3);
    if (!x4) {
        return (core__result__Result_6){ .tag = UINT8_C(1), .v1_f1 = (refusals__Refusal){ .tag = UINT8_C(12) } };
    }
    x7 = bresenham__major(x1, x3);
    x8 = bresenham__major(x1, x2);
    x4 = x7 < x8;
    if (x4) {
        x9 = fields__CellList__none();
        return (core__result__Result_6){ .tag = UINT8_C(0), .v0_f1 = x9 };
    }
    x10 = bresenham__walk(x1, false, x2, x3);
    return (core__result__Result_6){ .tag = UINT8_C(0), .v0_f1 = x10 };
}

/* bresenham::walk_bresenham_shallow */
static inline HanjolumLine bresenham__walk_bresenham_shallow(uint64_t x1, uint64_t x2, uint64_t x3, uint64_t x4)
{
    HanjolumFieldCell x5;
    core__result__Result_6 x7;
    x5 = (HanjolumFieldCell){ .column = x1, .row = x2 };
    x7 = bresenham__walk_alone(false, x5, (HanjolumFieldCell){ .column = x3, .row = x4 });
    return bresenham__told_line(x7);
}

/* hanjolum::hanjolum_walk_bresenham_shallow */
HanjolumLine hanjolum_walk_bresenham_shallow(uint64_t col_0, uint64_t row_0, uint64_t col_1, uint64_t row_1)
{
    return bresenham__walk_bresenham_shallow(col_0, row_0, col_1, row_1);
}

/* bresenham::walk_bresenham_steep */
static inline HanjolumLine bresenham__walk_bresenham_steep(uint64_t x1, uint64_t x2, uint64_t x3, uint64_t x4)
{
    HanjolumFieldCell x5;
    core__result__Result_6 x7;
    x5 = (HanjolumFieldCell){ .column = x1, .row = x2 };
    x7 = bresenham__walk_alone(true, x5, (HanjolumFieldCell){ .column = x3, .row = x4 });
    return bresenham__told_line(x7);
}

/* hanjolum::hanjolum_walk_bresenham_steep */
HanjolumLine hanjolum_walk_bresenham_steep(uint64_t col_0, uint64_t row_0, uint64_t col_1, uint64_t row_1)
{
    return bresenham__walk_bresenham_steep(col_0, row_0, col_1, row_1);
}

/* line_end::edge_away */
static inline uint64_t line_end__edge_away(bool x1)
{
    return choose_uint64_t(x1, UINT64_C(9), UINT64_C(0));
}

/* line_end::after */
static inline uint64_t line_end__after(bool x1, uint64_t x2)
{
    uint64_t x4;
    if (x1) {
        x4 = UINT64_C(9) - x2;
    } else {
        x4 = x2;
    }
    return x4;
}

/* line_end::nearest_row */
static inline uint64_t line_end__nearest_row(uint64_t x1, uint64_t x2, uint64_t x3)
{
    uint64_t x7;
    x7 = ((UINT64_C(2) * (x3 * x1)) + x2) - UINT64_C(1);
    return x7 / (UINT64_C(2) * x2);
}

/* line_end::first_leaving */
static inline uint64_t line_end__first_leaving(uint64_t x1, uint64_t x2, uint64_t x3, uint64_t x4)
{
    uint64_t x5, x8;
    x5 = UINT64_C(0);
    while (x5 < x4) {
        x8 = line_end__nearest_row(x1, x2, x2 + x5);
        if (x3 < x8) {
            return x5;
        }
        x5 = x5 + UINT64_C(1);
    }
    return x4;
}

/* line_end::further */
static inline uint64_t line_end__further(bool x1, uint64_t x2, uint64_t x3)
{
    uint64_t x5;
    if (x1) {
        x5 = x2 + x3;
    } else {
        x5 = x2 - x3;
    }
    return x5;
}

/* line_end::slanted_end */
static inline HanjolumFieldCell line_end__slanted_end(HanjolumFieldCell x1, HanjolumFieldCell x2)
{
    bool x3, x4;
    uint64_t x5, x6, x7, x8, x9, x10, x11;
    x3 = x2.column < x1.column;
    x4 = x2.row < x1.row;
    x5 = core__int__usize__abs_diff(x2.row, x1.row);
    x6 = core__int__usize__abs_diff(x2.column, x1.column);
    x7 = line_end__after(x4, x2.row);
    x10 = line_end__after(x3, x1.column);
    x8 = line_end__first_leaving(x5, x6, x7, x10);
    x11 = x6 + x8;
    x10 = line_end__nearest_row(x5, x6, x11);
    x9 = core__int__usize__min(x7, x10);
    x10 = line_end__further(x3, x1.column, x8);
    x11 = line_end__further(x4, x2.row, x9);
    return (HanjolumFieldCell){ .column = x10, .row = x11 };
}

/* line_end::corner_line_end */
static inline HanjolumFieldCell line_end__corner_line_end(HanjolumFieldCell x1, HanjolumFieldCell x2)
{
    uint64_t x3, x4, x5, x6;
    x3 = x1.column;
    x4 = x1.row;
    if (x3 == x2.column) {
        x5 = line_end__edge_away(x2.row < x4);
        return (HanjolumFieldCell){ .column = x3, .row = x5 };
    }
    if (x4 == x2.row) {
        x6 = line_end__edge_away(x2.column < x3);
        return (HanjolumFieldCell){ .column = x6, .row = x4 };
    }
    return line_end__slanted_end(x1, x2);
}

/* line_end::check_los_corner_propagation */
static inline HanjolumLineEnd line_end__check_los_corner_propagation(HanjolumFieldCell x1, HanjolumFieldCell x2)
{
    HanjolumFieldCell x3;
    uint8_t x6;
    if (fields__FieldCell__is_inside(x1)) {
        if (fields__FieldCell__is_inside(x2)) {
            x3 = line_end__corner_line_end(x1, x2);
            return (HanjolumLineEnd){ .number = UINT8_C(0), .cell = x3 };
        }
    }
    x6 = refusals__Refusal__number((refusals__Refusal){ .tag = UINT8_C(12) });
    return (HanjolumLineEnd){ .number = x6, .cell = (HanjolumFieldCell){ .column = UINT64_C(0), .row = UINT64_C(0) } };
}

/* hanjolum::hanjolum_line_end */
HanjolumLineEnd hanjolum_line_end(uint64_t corner_column, uint64_t corner_row, uint64_t goal_column, uint64_t goal_row)
{
    HanjolumFieldCell x5;
    x5 = (HanjolumFieldCell){ .column = corner_column, .row = corner_row };
    return line_end__check_los_corner_propagation(x5, (HanjolumFieldCell){ .column = goal_column, .row = goal_row });
}

/* hanjolum::hanjolum_is_pathable */
bool hanjolum_is_pathable(uint8_t byte)
{
    return flow_bits__is_pathable(byte);
}

/* hanjolum::hanjolum_is_goal */
bool hanjolum_is_goal(uint8_t byte)
{
    return flow_bits__is_goal(byte);
}

/* hanjolum::hanjolum_is_portal_goal */
bool hanjolum_is_portal_goal(uint8_t byte)
{
    return flow_bits__is_portal_goal(byte);
}

/* hanjolum::hanjolum_has_line_of_sight */
bool hanjolum_has_line_of_sight(uint8_t byte)
{
    return flow_bits__has_line_of_sight(byte);
}

/* flow_bits::is_wall */
static inline bool flow_bits__is_wall(uint8_t x1)
{
    bool x2, x4;
    x2 = (uint8_t)((uint32_t)x1 & UINT32_C(224)) == UINT8_C(224);
    if (x2) {
        x4 = flow_bits__is_pathable(x1);
        x2 = !x4;
    }
    return x2;
}

/* hanjolum::hanjolum_is_wall */
bool hanjolum_is_wall(uint8_t byte)
{
    return flow_bits__is_wall(byte);
}

/* utilities::CompassDir::number */
static inline uint8_t utilities__CompassDir__number(utilities__CompassDir x1)
{
    uint8_t x2;
    switch (x1.tag) {
    case 0:
        x2 = UINT8_C(0);
        break;
    case 1:
        x2 = UINT8_C(1);
        break;
    case 2:
        x2 = UINT8_C(2);
        break;
    case 3:
        x2 = UINT8_C(3);
        break;
    case 4:
        x2 = UINT8_C(4);
        break;
    case 5:
        x2 = UINT8_C(5);
        break;
    case 6:
        x2 = UINT8_C(6);
        break;
    case 7:
        x2 = UINT8_C(7);
        break;
    default:
        x2 = UINT8_C(8);
        break;
    }
    return x2;
}

/* hanjolum::hanjolum_get_compass_dir_from_bits */
uint8_t hanjolum_get_compass_dir_from_bits(uint8_t byte)
{
    utilities__CompassDir x2;
    x2 = flow_bits__get_compass_dir_from_bits(byte);
    return utilities__CompassDir__number(x2);
}

/* version::version */
static inline uint32_t version__version(void)
{
    uint32_t x1;
    x1 = UINT32_C(1) * UINT32_C(1000000);
    return (x1 + (UINT32_C(3) * UINT32_C(1000))) + UINT32_C(0);
}

/* hanjolum::hanjolum_version */
uint32_t hanjolum_version(void)
{
    return version__version();
}
