# The usual prelude of a draft, for GNU as: it adds no nop behind a branch,
# does not use $at by itself, and knows the macros of labels.
.set noat
.set noreorder

# A label that other objects see.
.macro glabel label
.global \label
\label:
.endm

# The same for data.
.macro dlabel label
.global \label
.type \label, @object
\label:
.endm

# The same for a place inside a routine that a jump table leads to.
.macro jlabel label
.global \label
\label:
.endm

# Behind what a label names: gives its symbol the size.
.macro endlabel label
.size \label, . - \label
.endm
