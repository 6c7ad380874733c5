# plain.awk: the lines of a module (LLVM's, as text) that are not in this list. What is in it means the same on aarch64 as on x86-64: whole numbers of 1 to 64 bits,
# plain loads and stores, calls within the module and pairs that they give, memory moved and filled, bytes that stay as they are; no variable, no floating point, no vector, nothing atomic, no assembler. An entry
# takes pointers and numbers, and takes nothing for granted of the bits beside a narrow number (as "zeroext" would), which aarch64 leaves open.
BEGIN {
    split("add alloca and ashr br call extractvalue getelementptr icmp load lshr mul or phi ret sdiv select sext shl srem store sub switch trunc udiv " \
        "unreachable urem xor zext", names)
    for (i in names)
        plain[names[i]] = 1
    other = "[ (](atomic|volatile|asm|half|bfloat|float|double|fp128|x86_fp80|ppc_fp128|i128|byval|sret|inalloca|preallocated|inreg|" \
        "swiftself|[a-z0-9]+cc)[ (,)]|addrspace|<[0-9v]"
}
/^$/ || /^;/ || /^!/ || /^source_filename = / || /^[}]$/ || /^  \]$/ || /^[a-z]+:/ || /^[a-z]+\.[0-9]+:/ { next }
$0 == "target datalayout = \"e-m:e-p270:32:32-p271:32:32-p272:64:64-i8:8:32-i16:16:32-i64:64-i128:128-n32:64-S128-Fn32\"" { next }
$0 == "target triple = \"aarch64-unknown-linux-gnu\"" { next }
/^attributes / && gsub(/"probe-stack"="inline-asm"|"stack-probe-size"="[0-9]+"/, "") >= 0 && !/"/ { next }
/^@static\.[0-9]+ = private unnamed_addr constant \[[0-9]+ x i8\] c"[^"]*", align [0-9]+$/ { next }
/^declare void @llvm\.(memcpy|memmove|memset|trap)[.(]/ { next }
/^define noundef i(8|16|32|64) @pouch_[a-z0-9_]*\(((ptr|i1|i8|i16|i32|i64) noundef %a[0-9]+(, )?)*\) #0 [{]$/ { next }
$0 !~ other && (/^define internal / || /^    i(8|16|32|64) -?[0-9]+, label %[a-z0-9.]+$/ || /^  [^ ]/ && ($1 ~ /^%/ ? $3 : $1) in plain) { next }
{ print "line " NR " of the module: " substr($0, 1, 150) }
