yarrow-module 1
module booleans
uses equality

% A truth value chooses one of two things. It is data, and no proposition.
define bool : * := @A:*. A -> A -> A
define yes : bool := \A:*. \a:A. \b:A. a
define no : bool := \A:*. \a:A. \b:A. b
define if : @A:*. bool -> A -> A -> A := \A:*. \c:bool. c A

define not : bool -> bool := \x:bool. if bool x no yes
define and : bool -> bool -> bool := \x:bool. \y:bool. if bool x y no
define or : bool -> bool -> bool := \x:bool. \y:bool. if bool x yes y

% What computes is equal by refl.
define if_yes : @A:*. @a:A. @b:A. equality.eq A (if A yes a b) a := \A:*. \a:A. \b:A. equality.refl A a
define if_no : @A:*. @a:A. @b:A. equality.eq A (if A no a b) b := \A:*. \a:A. \b:A. equality.refl A b
define not_yes : equality.eq bool (not yes) no := equality.refl bool no
define not_no : equality.eq bool (not no) yes := equality.refl bool yes
define and_yes : @x:bool. equality.eq bool (and yes x) x := \x:bool. equality.refl bool x
define and_no : @x:bool. equality.eq bool (and no x) no := \x:bool. equality.refl bool no
define or_yes : @x:bool. equality.eq bool (or yes x) yes := \x:bool. equality.refl bool yes
define or_no : @x:bool. equality.eq bool (or no x) x := \x:bool. equality.refl bool x

% A value that is yes or no: what holds of yes and of no holds of it. Each law that needs cases asks for it.
define proper : bool -> * := \x:bool. @P:bool -> *. P yes -> P no -> P x
define proper_yes : proper yes := \P:bool -> *. \p:P yes. \q:P no. p
define proper_no : proper no := \P:bool -> *. \p:P yes. \q:P no. q
define proper_not : @x:bool. proper x -> proper (not x) := \x:bool. \h:proper x. h (\y:bool. proper (not y)) proper_no proper_yes
define not_not : @x:bool. proper x -> equality.eq bool (not (not x)) x := \x:bool. \h:proper x. h (\y:bool. equality.eq bool (not (not y)) y) (equality.refl bool yes) (equality.refl bool no)
define and_self : @x:bool. proper x -> equality.eq bool (and x x) x := \x:bool. \h:proper x. h (\y:bool. equality.eq bool (and y y) y) (equality.refl bool yes) (equality.refl bool no)
define and_swap : @x:bool. @y:bool. proper x -> proper y -> equality.eq bool (and x y) (and y x) := \x:bool. \y:bool. \h:proper x. \k:proper y. h (\z:bool. equality.eq bool (and z y) (and y z)) (k (\z:bool. equality.eq bool z (and z yes)) (equality.refl bool yes) (equality.refl bool no)) (k (\z:bool. equality.eq bool no (and z no)) (equality.refl bool no) (equality.refl bool no))
define not_and : @x:bool. @y:bool. proper x -> equality.eq bool (not (and x y)) (or (not x) (not y)) := \x:bool. \y:bool. \h:proper x. h (\z:bool. equality.eq bool (not (and z y)) (or (not z) (not y))) (equality.refl bool (not y)) (equality.refl bool yes)
end
