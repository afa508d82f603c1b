; A proved program checks at its start whether the processor has the features for which its module
; was compiled. This function returns all features, since the C file doesn't need any of them.
target datalayout = "e-m:e-p270:32:32-p271:32:32-p272:64:64-i64:64-i128:128-f80:128-n8:16:32:64-S128"
target triple = "x86_64-unknown-linux-gnu"

@all = private unnamed_addr constant [8 x i32] [i32 -1, i32 -1, i32 -1, i32 -1, i32 -1, i32 -1, i32 -1, i32 -1], align 4

define ptr @__x86_get_cpuid_feature_leaf(i32 %leaf) {
start:
  ret ptr @all
}
