yarrow-module 1
module bad
assume T : *
define id : @A:*. A -> A := \A:*. \x:A. x
define wrong : T -> T := \x:T. id x
end
