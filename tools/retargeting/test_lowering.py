#!/usr/bin/env python3
"""Tries the lowering on lines by themselves: what each becomes, what stays, and what is refused."""
import unittest

from lowering import Machine, Unknown, left, lower

NARROW = Machine(32, ('target triple = "other"',))
WIDE = Machine(64, divides=True)


def body(text, machine=NARROW):
    return lower(text, machine)[0].splitlines()


class Lowering(unittest.TestCase):
    def test_a_pointer_of_a_pair_stands_at_byte_eight(self):
        lines = body("  %r1 = load { i8, ptr }, ptr %a0, align 8")
        self.assertEqual(lines[0], "  %r1.first = load i8, ptr %a0, align 8")
        self.assertEqual(lines[1:3], ["  %r1.byte = getelementptr i8, ptr %a0, i64 8", "  %r1.second = load ptr, ptr %r1.byte, align 8"])
        self.assertEqual(lines[-1], "  %r1 = insertvalue { i8, ptr } %r1.half, ptr %r1.second, 1")

    def test_each_second_part_stands_at_a_multiple_of_its_size(self):
        for pair, byte in (("i8, i8", 1), ("i8, i16", 2), ("i8, i32", 4), ("i32, i64", 8), ("i64, i8", 8), ("ptr, i8", 8), ("i16, i8", 2)):
            self.assertIn(f"  %r1.byte = getelementptr i8, ptr %a0, i64 {byte}", body(f"  %r1 = load {{ {pair} }}, ptr %a0, align 8"))

    def test_a_pair_is_stored_by_its_parts(self):
        lines = body("  store { ptr, i64 } %r0, ptr %r1, align 8")
        self.assertIn("  store ptr %stored.1.first, ptr %r1, align 8", lines)
        self.assertIn("  %stored.1.byte = getelementptr i8, ptr %r1, i64 8", lines)
        self.assertIn("  store i64 %stored.1.second, ptr %stored.1.byte, align 8", lines)

    def test_a_part_is_no_better_aligned_than_the_whole(self):
        self.assertIn("  %r1.second = load i64, ptr %r1.byte, align 1", body("  %r1 = load { i8, i64 }, ptr %a0, align 1"))

    def test_lengths_and_addresses_have_the_bits_of_the_machine(self):
        line = "  call void @llvm.memmove.p0.p0.i64(ptr %a, ptr %b, i64 %n, i1 false)"
        self.assertEqual(body(line)[0], "  %bytes.1 = trunc i64 %n to i32")
        self.assertEqual(body(line)[1], "  call void @llvm.memmove.p0.p0.i32(ptr %a, ptr %b, i32 %bytes.1, i1 false)")
        self.assertEqual(body(line, WIDE), [line])
        self.assertEqual(body("  %r1 = ptrtoaddr ptr %a to i64")[1], "  %r1 = zext i32 %r1.narrow to i64")

    def test_a_division_is_a_call_unless_it_is_a_shift(self):
        self.assertEqual(body("  %r1 = udiv i64 %a, %b")[0], "  %r1 = call i64 @narrow_quotient(i64 %a, i64 %b)")
        self.assertEqual(body("  %r1 = urem i64 %a, 100")[0], "  %r1 = call i64 @narrow_remainder(i64 %a, i64 100)")
        for line, machine in (("  %r1 = udiv i64 %a, 16", NARROW), ("  %r1 = udiv i64 %a, %b", WIDE), ("  %r1 = udiv i32 %a, 100", NARROW)):
            self.assertEqual(body(line, machine), [line])

    def test_the_machine_is_said_once(self):
        self.assertEqual(body('target datalayout = "e"\ntarget triple = "x86_64-unknown-linux-gnu"'), ['target triple = "other"'])
        self.assertEqual(body('attributes #0 = { nounwind "probe-stack"="inline-asm" "target-cpu"="x86-64-v2" }'), ["attributes #0 = { nounwind }"])

    def test_what_puts_a_value_on_the_heap_is_inlined(self):
        for name, words in (("std_alloc::boxed::Box::new::<#1>", " alwaysinline"), ("osdp_device::device::Device::new", "")):
            self.assertEqual(body(f'define internal void @"{name}"(ptr noundef %a0) #0 {{'), [f'define internal void @"{name}"(ptr noundef %a0) #0{words} {{'])

    def test_what_is_not_known_is_refused_by_its_line(self):
        for line in (
            "  %r1 = load { i8, i8, i8 }, ptr %a0, align 1", "  %r1 = load { i8, { i8, ptr } }, ptr %a0, align 8", "  %r1 = alloca { i8, ptr }, align 8",
            "  %r1 = getelementptr { i8, ptr }, ptr %a0, i64 1", "  %r1 = getelementptr ptr, ptr %a0, i64 1", "  %r1 = load i128, ptr %a0, align 16",
            "  %r1 = fadd double %a, %b", "  call void asm sideeffect \"nop\", \"\"()", "  fence seq_cst",
            "@table = constant [1 x ptr] [ptr @f], align 8", "declare void @free(ptr)", "  %r1 = load atomic i64, ptr %a0 seq_cst, align 8",
            "  call void @llvm.memcpy.inline.p0.p0.i64(ptr %a, ptr %b, i64 8, i1 false)", 'attributes #0 = { nounwind "target-features"="+avx" }',
            "define void @f(ptr byval({ i8, ptr }) %a0) #0 {", "  call void @f(ptr sret({ i8, ptr }) %a0)", "  store { i8, ptr } zeroinitializer, ptr %a0, align 8",
            "  %r1 = inttoptr i64 %a to ptr", "  %r1 = call { i64, i64 } @rattle_open(i64 1)",
        ):
            with self.assertRaisesRegex(Unknown, "^line 2 of the module"):
                lower("\n" + line, NARROW)

    def test_a_pair_that_is_left_is_seen(self):
        text = "  %r1 = load { i8, ptr }, ptr %a0, align 8\n  %r2 = load { i8, ptr }, ptr %a0, align 8"
        self.assertEqual(left(lower(text, NARROW)[0], NARROW), [])
        for which in (0, 1):
            self.assertEqual(len(left(lower(text, NARROW, which)[0], NARROW)), 1)

    def test_an_address_and_a_length_that_are_left_are_seen(self):
        for line in ("  %r1 = ptrtoaddr ptr %a to i64", "  call void @llvm.memset.p0.i64(ptr %a, i8 0, i64 8, i1 false)"):
            self.assertEqual(len(left(line, NARROW)), 1)
            self.assertEqual(left(line, WIDE), [])


if __name__ == "__main__":
    unittest.main()
