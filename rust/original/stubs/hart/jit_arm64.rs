// Stands for src/hart/jit_arm64.rs, which is empty on x86-64.
