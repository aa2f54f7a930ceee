yarrow-module 1
module hurkens

% Hurkens's paradox: a proof of falsehood where types of the sort # may quantify over all types of the sort #.

define false : * := @P:*. P
define not : * -> * := \A:*. A -> false

% Here a set of the things of X is a predicate on them, X -> *. This universe takes any X, with a function that makes a thing
% of X from each set of sets of X, to a set of sets of X. It takes any X, and is one itself.
define U : # := @X:#. (((X -> *) -> *) -> X) -> (X -> *) -> *

% From a set of sets of the universe to a thing of the universe, and back. (tau (sigma x) need not be x.)
define tau : ((U -> *) -> *) -> U := \t:(U -> *) -> *. \X:#. \f:((X -> *) -> *) -> X. \p:X -> *. t (\x:U. p (f (x X f)))
define sigma : U -> (U -> *) -> * := \x:U. x U tau

% A predicate is inductive if it holds of each x among whose sets it is.
define inductive : (U -> *) -> * := \p:U -> *. @x:U. sigma x p -> p x

% Omega is the thing whose sets are the inductive predicates, up to tau and sigma. Each of them holds of it.
define Omega : U := tau inductive
define holds : @p:U -> *. inductive p -> p Omega := \p:U -> *. \i:inductive p. i Omega (\x:U. i (tau (sigma x)))

% A thing is in Delta if not all of its sets hold of tau (sigma x). Delta is inductive, so it holds of Omega; and it does not.
define Delta : U -> * := \x:U. not (@p:U -> *. sigma x p -> p (tau (sigma x)))
define delta : inductive Delta := \x:U. \d:sigma x Delta. \h:@p:U -> *. sigma x p -> p (tau (sigma x)). h Delta d (\p:U -> *. h (\y:U. p (tau (sigma y))))
define paradox : false := holds Delta delta (\p:U -> *. holds (\x:U. p (tau (sigma x))))

% From falsehood everything follows.
define everything : @A:*. A := paradox
end
