axiom A : Prop
axiom a : A
axiom F : A → Type
axiom q : ∀ (p : Prop), p → p
