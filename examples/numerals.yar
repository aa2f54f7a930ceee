yarrow-module 1
module numerals

% The number n is what does a thing n times.
define nat : * := @A:*. (A -> A) -> A -> A
define zero : nat := \A:*. \s:A -> A. \z:A. z
define succ : nat -> nat := \n:nat. \A:*. \s:A -> A. \z:A. s (n A s z)
define plus : nat -> nat -> nat := \m:nat. \n:nat. \A:*. \s:A -> A. \z:A. m A s (n A s z)
define times : nat -> nat -> nat := \m:nat. \n:nat. \A:*. \s:A -> A. m A (n A s)

define two : nat := succ (succ zero)
define four : nat := plus two two

% A number is iterated on numbers, too: here m times the successor.
define again : nat -> nat -> nat := \m:nat. \n:nat. m nat succ n
end
