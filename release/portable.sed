# Makes of a module's text, as the kit's clang writes it, one that clang 15 to 22 take, for any 64-bit little-endian processor.
# SPDX-License-Identifier: MIT
# The processor's names and layout go: the compiler's own stand in their place.
/^target \(triple\|datalayout\) /d
s/ "\(target-cpu\|target-features\|tune-cpu\)"="[^"]*"//g
# What is said of LLVM's own functions goes: each version knows it and says it in words of its own.
/^declare /s/ \(captures(none)\|writeonly\|readonly\|immarg\)//g
/^declare /s/ #[0-9]*$//
/^attributes #[1-9]/d
# Hints that older versions do not know. Each only lets a compiler assume more.
s/\(= trunc\|= getelementptr inbounds\) nuw /\1 /
# The address of a pointer, which older versions ask for by a word that tells the compiler more to keep.
s/= ptrtoaddr ptr \([^ ]*\) to i64/= ptrtoint ptr \1 to i64/
# Results of 32 bits are made wide as C's callers on riscv64 expect it.
s/^define noundef i32 @nw_/define noundef signext i32 @nw_/
