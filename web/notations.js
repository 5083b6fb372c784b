// The notations that the page reads: one alternative a line,  Name = items -> meaning  # an example;  a line with | is a further alternative of the
// same name. The table is ambiguous on purpose: a line has the readings of all its trees, and where these are several commands all are offered.
//
// Items: a name with a capital is a rule or a class of signs; NUM is a run of digits, sup raised digits; everything else is the sign or word itself.
// `~X` is X with no blank before it, `␣X` X after a blank, `X?` X or nothing, `a|b` one of these. A class with `:=` keeps which sign it was,
// one with `~=` does not. `==` gives the texts that are the same as a sign, as a blank or as nothing. A text in quotes after the name of a rule is what
// the page calls it when it is expected.
//
// The meaning is a function of MEANINGS (meanings.js) with the values of the items that have one: rules, NUM, sup, classes with `:=`. Numbers after
// it choose items by their places, other words are given as they are; a number alone is the item's value, and without a meaning it is the one value.
// `!` marks a repair, which changes what is asked: it is offered where there is no reading, and never runs. `?` marks a doubtful reading, which counts
// beside the others and never runs.

const NOTATIONS = String.raw`
# ---------------------------------------------------------------- signs
- == − ‐ ‑ ‒ – — ﹣ －
· == × ⋅ • \cdot \times times
∗ == \ast \star ⋆ ★
/ == ⁄ ∕
∖ == ⧵ \ \setminus \backslash
< == ⟨ 〈 \langle
> == ⟩ 〉 \rangle
∪ == \cup ⌣ \smile
∩ == \cap
⊗ == \otimes
⊠ == \boxtimes
⊕ == \oplus
□ == \square \Box
⊥ == \perp perp
schubert == schub Sch
GL == gl
S == 𝕊
∘ == \circ circ
∅ == \emptyset \varnothing
' == \prime
: == \colon
T == \top
to == → -> => \rightarrow \mapsto via
in == ∈
hash == #
𝔖 == frakS
𝔾 == bbG
σ == sigma
χ == chi
ω == omega
Δ == \Delta Delta
λ == lambda
μ == mu
ν == nu
Λ == \Lambda Lambda ∧ ⋀ \wedge \bigwedge
Σ == \sum ∑ \Sigma
Ω == \Omega
∫ == \int
degree == deg
coefficient == coeff
dimension == dim
functions == function
polynomials == polynomial
frac == tfrac dfrac
widehat == hat
qcoh == qh
QH == qH
rsk == RS
2 == two
3 == three third
4 == four fourth
5 == five fifth
6 == six
blank == \quad \qquad $
nothing == the please 's me \left \right \big \Big \bigl \bigr \displaystyle \limits
Family "m, e, h, p or s" := m e h p s
SM := s m
Sign "+ or -" := + -
Minus "-" := -
Sch ~= S 𝔖
Prime ~= ' ′ ’
To ~= in to into as
Dot "a times sign" ~= * · ∗ ∪ ∩
Ast "a times sign" ~= * · ∗
Over ~= / ∖
Greek ~= λ μ ν α β ρ
O_ ~= ∘ o
Cup ~= ∪

# ---------------------------------------------------------------- numbers and lists
Part "a number" = NUM -> part  # 12: one number, since commas or blanks part it from others
  | NUM ~^ ~NUM -> partPower  # 2^3
  | NUM ~^ ~{ NUM } -> part
  | NUM ~sup -> part
Commas = Part|Commas , Part -> join
Blanks = Part|Blanks ␣Part -> join
Digits = NUM -> digits  # 21: two numbers, or one
  | NUM ~^ ~NUM -> digitsPower  # 21^2: (2,1,1) or (21,21)
  | NUM ~^ ~{ NUM } -> digits
  | NUM ~sup -> digits
Compact "digits" = Digits
  | Compact ~Digits -> join  # 2^{2}11
Tightly = Part ~, ~Part -> join  # 2,1 without brackets: the same blanks at all commas
  | Tightly ~, ~Part -> join
Loosely = Part|Loosely , ␣Part -> join
Inside "numbers" = Commas
  | Commas ,  # (2,1,) of Python
  | Part ,  # (21,): one part, whatever its digits
  | Blanks -> typedWith blanks
  | Compact -> typedWith digits
Round = ( Inside )
Square = [ Inside ]
Empty = ∅ -> list
  | ( ) -> list
  | [ ] -> list
  | { } -> list
List "a list" = Round|Square
  | { Inside }  # Mathematica
  | { Round }
  | Empty
  | yng ( Inside )  # \yng(2,1)
  | ydiagram { Inside }
Lams = Lam , Lam -> list
Lam "a partition" = List
  | List ~Prime -> conjugate  # (3,1)'
  | List ~^ ~t|T|Prime -> conjugate
  | conjugate|transpose of? Lam -> conjugate
  | partition ( Square )  # Sage
Sub = Below|Square
Below = Inside|Round|Empty
  | Inside|Round Prime -> conjugate
  | yng ( Inside )
  | ydiagram { Inside }
  | □ -> copies "1" "1"
Tight = NUM -> part  # an index without braces
  | Tight ~, ~NUM -> join
Index "an index" = ~_ ~{ Below }  # s_{2,1}
  | ~_ ~{ Square } -> ? 3  # s_{[2,1]}: or a character of O(n)
  | ~_ ~NUM -> digits  # s_21
  | ~_ ~Round|Square|Empty
  | ~_ ~NUM ~, ~Tight -> ? join  # s_2,1 (a comma with two readings)
  | ~_ ~NUM ␣Blanks|Part -> ! join  # s_2 1
  | ~. ~Square  # s.[2,1], Magma
  | ~Square  # s[2,1]
  | ␣Square -> ! 1  # s [2,1]: a blank too many
  | ~[ ~] -> list
  | ~∅ -> list
  | ~[ { Inside } ]  # s[{2,1}], Mathematica
  | ~( Inside ) -> called  # s(2,1)
  | ~( Square )  # s([2,1]), Sage
  | ~NUM -> digits  # s21
Degree = ~^ ~NUM
  | ~^ ~{ NUM }
  | ~sup
Lowered = ~_ ~NUM
  | ~_ ~{ NUM }
IndexPower = ~_ ~NUM ~^ ~NUM -> digitsPower  # s_1^3 as s_{1^3}
  | ~_ ~NUM ~^ ~{ NUM } -> digits
Upper = ~^ ~{ Sub }
  | ~^ ~Round|Square
  | ~^ ~( ) -> list
Above = Upper
  | ~^ ~NUM -> digits
Lower = ~_ ~{ Sub }
  | ~_ ~NUM -> digits
  | ~_ ~Round|Square
Exp "an exponent" = ~^ ~NUM -> exponent  # ^2; ^21 is 21, or 2 and a digit
  | ~^ ~{ NUM } -> list
  | ~sup -> list
  | ** NUM -> list
  | ~^ ~( NUM ) -> list
  | Squared -> ? 1  # of a factor, or of the product that it ends
  | to NUM power -> list
Squared = squared -> list "2"
  | cubed -> list "3"
Arg "a partition" = Lam  # in a phrase
  | s Index -> typedWith index
  | Tightly
  | Compact -> ? 1  # 2: a partition, or a number
  | Blanks
  | partition Arg
  | schur functions Arg
  | Greek = Lam  # λ=(2,1)
By = and|with|by -> ""
Twice = Arg By Arg -> list
  | Arg , and? Arg -> list
  | Arg Dot Arg -> list
Both "two partitions" = Twice
  | Arg ⊗ Arg -> ? list  # or the internal product

# ---------------------------------------------------------------- symmetric functions
Atom "a symmetric function" = Family Index -> atom
  | ch ~( S Above ) -> atom s 4  # of a Specht module
  | frobenius characteristic of? S Above -> atom s 5
  | symmetricfunctions ( Ring ) . Family ( ) Index -> atom
InX = ~[ ~X ~] -> ""
Ring = QQ|ZZ -> ""
Named = monomial Functions? -> word m  # the power sum p_3
  | elementary Functions? -> word e
  | complete? homogeneous Functions? -> word h
  | power -? sum Functions? -> word p
  | schur Functions? -> word s
Functions = symmetric? functions|polynomials -> ""
Power = Atom
  | Atom InX  # h_2[X]
  | Named Atom -> named
  | Paren|Det
  | SM IndexPower -> ? atom  # s_1^3 (and no further exponent)
  | Atom|Paren Exp -> powerOf
Paren = ( Sum ) -> paren
Det = det|determinant of? Matrix -> determinant  # of Jacobi and Trudi
  | vmatrix Matrix_ vmatrix -> determinant
Matrix = [ DRows ]
  | { DRows }
  | ( Matrix )
  | [ { DRows } ]
  | ( Matrix_ )
  | pmatrix Matrix_ pmatrix
Matrix_ = DRow -> list
  | Matrix_ ;|\\ DRow -> add
DRows = DList -> list
  | DRows ,? DList -> add
DList = [ DRow ]
  | { DRow }
DRow = Sum -> list
  | DRow ,|& Sum -> add
Number = NUM -> written ""
Scalar = Number
  | Number Exp -> powerOf
Factor "a factor" = Power|Scalar
  | Scalar / NUM -> written /
  | frac { Scalar } { NUM } -> written /
Term "an expression" = Factor
  | Term *|· Factor -> timesText
  | Term ∗ Factor -> ? timesText  # or the internal product
  | Term Power -> beside  # h_3 e_2, 2 s_1; h_3(h_2) can be a plethysm
  | Term Det -> timesText
  | Term Scalar -> ! timesText  # h[2]^{2}3
Sum "an expression" = Term
  | Term Squared -> powerOf
  | Minus Term -> written ""
  | Sum Sign Term -> written ""
Basis "a basis" = Family
  | Family ~_ i
  | Family ~_ Greek  # m_λ
  | Family ~_ ~{ Greek }
  | monomial|monomials -> word m
  | elementary|elementaries -> word e
  | complete homogeneous? -> word h
  | homogeneous|homogeneouses -> word h
  | power -? sum|sums -> word p
  | powersum|powersums -> word p
  | schur|schurs -> word s
  | Basis functions|polynomials|basis
  | Basis - basis  # s-basis
  | Basis symmetric functions|polynomials
In = To -> ""
  | = ?? To -> ""  # = ? in h
  | expanded|written|expressed To -> ""
  | in basis -> ""
  | in terms of -> ""
  | as a? sum|combination of -> ""
  | as a? linear combination of -> ""
  | as a? polynomials in -> ""
  | = Σ ?? -> ""  # h_{22} = Σ m_λ
  | = ? -> ""
  | = Σ χ ~^ Greek ~( Inside ) -> ""
Convert = expand|write|express|convert|rewrite|transform|change -> ""
  | change of? basis of|for? -> ""
Plethysm "a plethysm" = Power ~[ Sum ] -> composed  # h_2[h_3]
  | Power O_ Power -> composed
  | plethysm OfLam O_ OfLam -> composed
  | Power composed with Power -> composed
  | Power ( Sum ) -> composed  # h_2(h_3): or a product
  | Power . plethysm ( Sum ) -> composed  # Sage
  | plethysm of? Power By Power -> composed
  | plethysm ~:? Power of Power -> composed
  | plethysm of|:? Plethysm
Omega = ω Family Index -> omega  # ω s_{3,1} is s_{2,1,1} (what follows could be under it, too)
  | ω ( Family Index ) -> omega
  | ω of Family Index -> omega
  | Family Index . ω ( ) -> omega
Question = Omega -> bare
  | Convert? Omega In Basis -> expand 4 2
  | Sum -> bare
  | Convert? Sum In Basis -> expand 4 2  # e_3 in h
  | Convert? product of? And|Term In Basis -> expand 6 4
  | Plethysm -> plethysmBare
  | Convert? Plethysm In Basis -> plethysm 4 2
  | Family ~( Sum ) -> sageExpand  # s(h[2,1]), Sage
  | Family ~( Plethysm ) -> plethysm
  | Convert Sum -> ! bare  # expand s2: in which basis?
  | expand Family ~( Sum ) -> ! sageExpand
  | Basis -? expansion|decomposition of? Sum -> expand  # Schur expansion of p_3
  | Basis -? expansion|decomposition of? Plethysm -> plethysm
  | expansion of? Sum In Basis -> expand 5 3
  | expansion of? Plethysm In Basis -> plethysm 5 3
  | Convert? Skewed In Basis -> skewIn
  | Convert? Skewed -> skew
  | JacobiTrudi OfArg -> expand h
  | dual JacobiTrudi OfArg -> expand e
  | JacobiTrudi|Giambelli σ OfIndex -> expand h
  | Giambelli OfArg -> ? expand h  # or in hooks
  | ToBasis ( Sum ) -> expand 1 3
  | ToBasis ␣Atom -> expand
  | ToBasis ( Composed ) -> plethysm 1 3
  | Composed In Basis -> plethysm 3 1
  | Family ~( Composed ) -> plethysm
  | symmetrica? .? t ~_ InSymmetrica ~_ InSymmetrica ( List ) -> convert 5 7 9
  | Convert? FromFamily In Basis -> expand 4 2
  | scalar ( Sum , Sum ) -> inner
ToBasis = tos -> word s  # Stembridge's SF, and Macaulay2
  | toe -> word e
  | toh -> word h
  | top -> word p
  | tom -> word m
FromFamily = Atom from Basis -> named 3 1
Composed = plethysm ( Arguments )
InSymmetrica = schur -> word s
  | powsym -> word p
  | homsym -> word h
  | elmsym -> word e
  | monomial -> word m
JacobiTrudi = jacobi -? trudi formula|determinant|expansion|identity? of|for|:? -> ""
Giambelli = giambelli formula|determinant|expansion|identity? of|for|:? -> ""
RowsOfS = S Index -> rowsOfS  # with an increasing list: its rows from the last one on
OfS_ = RowsOfS -> atom s
SProduct = RowsOfS -> list
  | SProduct Dot|⊗? RowsOfS -> add
  | RowsOfS Exp -> listPower
InVariables = in NUM variables|vars|variable
  | with|in at most NUM rows|parts
  | restricted|truncated to NUM rows|variables
SPair = RowsOfS By RowsOfS -> list
Several = Power|Several , Power -> timesText
And = Power By Power -> timesText
  | Several ,? and Power -> timesText
SAtom = s Index -> atom s
OfIndex = Index -> atom s
OfArg = Arg -> atom s
SVar = SAtom ~( Letters ) -> inLetters  # s_{2,1}(x_1,x_2)
  | Functor Cn -> inLetters  # Sym^4(C^2)
Ones = Inside -> countOfOnes
SVars = SVar -> list
  | SVar Exp -> listPower
  | SVars *|·|⊗? SVar -> add
Product = symmetrica . mult_schur_schur|outerproduct_schur ( Lams )
  | LrRule Both
  | pieri rule|formula of|for|:? Both
  | product of? NUM? schur functions :? Both -> 7
SchurProduct = schur functions? product of|:? -> ""
  | outer product of|:? -> ""
Question = Sum InVariables -> product
  | SchurProduct Sum -> bare
  | SchurProduct ListProduct|Both -> product
  | SkewName shape? ListProduct -> product  # λ*μ, corner to corner
  | Sum ForGl -> ! product
  | CompactProduct -> ? product  # 21*21: or a product of numbers
  | SProduct -> ? product  # S_{3,2}*S_{2,1}: of Schur, or of Schubert
  | product of? SPair -> ? product
  | multiply SPair -> ? product
  | SVars -> multInLetters
  | SAtom ~( Ones ) -> inGl  # s_{2,1}(1,1,1): a number in a plethysm stands for so many variables that are 1
  | SAtom ~( Ones ) -> timesOnes  # or the product with s_{1,1,1}
  | Value SAtom at ( Ones ) -> inGl 2 5
  | dimension of? Functor Cn -> inGl
  | dimension of? GlOf Irreducible? OfArg -> inGl 5 3
  | dimension of? Irreducible? OfArg ForGl -> inGl
  | dimension of? V OfIndex ForGl -> inGl
  | SAtom ~( Letters ) -> ? polynomial  # that of a permutation whose code increases
  | product of? And -> bare 3
  | multiply And -> bare 2
  | Product -> product
  | product|multiply of? Both -> listProduct
  | product|multiply of? Both InVariables -> product
  | Product InVariables -> product
CompactProduct = Compact *|· Compact -> list
  | CompactProduct *|· Compact -> add
# skew shapes, coefficients, numbers
Inner = Lam|Commas|Blanks|Compact
Shapes = Inner Over Inner -> list 1 3
  | ( Inside ) Over ( Inside ) -> list 2 6
  | [ Inner Over Inner ] -> list 2 4
Slash = ~_ ~{ Shapes }  # s_{321/21}
  | ~_ ~( Shapes )
  | ~[ Shapes ]
  | ~( Shapes )  # s(32/1)
Perp = ~^ ~⊥ -> ""
  | ~^ ~{ ⊥ } -> ""
Slashed = s Slash
  | s Round Over Round -> list 2 4  # s(3,2)/(1)
  | s Round|Empty Over Empty -> list 2 4
  | s Index Over s Index -> ? list 2 5  # s_λ/s_μ: or the quotient
  | s Index Over ~_ ~{ Sub } -> list 2 6  # s₃₂/₁
  | LikeSchur Perp s Index -> list 4 1  # h_2^⊥ s_{3,1}
  | LikeSchur Perp ( s Index ) -> list 5 1
  | s Index . skew_by ( s Index ) -> list 2 7  # Sage
  | s ~( [ Lams ] )  # s([[3,2,1],[2,1]]), Sage
  | s ~( skewpartition ( [ Lams ] ) )
  | s . skew_schur ( Lams )
  | skew ( s Index , s Index ) -> inOrder 4 7  # Maple: the second by the first
  | symmetrica . part_part_skewschur ( Lams )
  | S ~^ ~{ Shapes }  # a skew Specht module
SkewName = skew schur? functions|polynomials? of? for? -> ""
  | skew specht module|modules? of? -> ""
Skewed = Slashed
  | SkewName Slashed
  | SkewName shape? Skew
  | SkewName shape? Arg by|, Arg -> list
  | SkewName shape? Arg and|with Arg -> ? list  # or each of the two
Question = Convert? Skewed InVariables -> skew
  | Convert? Slashed ~( Letters ) -> skew
  | ribbon schur? functions? R|r Index -> ribbon 5
  | < s Index , Slashed > -> tabContent 5 3
  | < Slashed , s Index > -> tabContent 2 5
  | Inner Over Inner -> shapeOnly 1 3  # 321/21
  | Coproduct EqualsSum? -> coproduct
LikeSchur = Atom -> likeSchur  # s_λ, h_n and e_n
Coproduct = Δ of Arg
  | Δ of? LikeSchur
  | LikeSchur . coproduct ( )
  | coproduct|comultiplication of|:? Arg|LikeSchur
  | Δ|coproduct ( LikeSchur )
  | s Index ~( x , y ) ProductsOf
  | s Index ~( x|X ,|; y|Y ) -> ? 2  # or the polynomial in two variables
  | LikeSchur ~[ X|A + Y|B ]
  | LikeSchur ~[ x + y ] -> ? 1  # or in two variables
  | Sch Index ~( V ⊕ W )
  | Sch ~^ ~{ Sub } ~( V ⊕ W )
EqualsSum = = Σ s ~_ ~{ Greek / Greek } ⊗ s ~_ Greek -> ""
ProductsOf = , in products s ~_ ~{ μ } ( x ) s ~_ ~{ ν } ( y ) -> ""
  | , in products s μ ( x ) s ν ( y ) -> ""
Cell = Compact -> typedWith bare
  | Greek = List
  | Round|Square
  | { Inside }
  | Empty
Spaced = Compact -> typedWith bare
  | Blanks
Cells = Cell , Cell -> list  # 21,21
  | Spaced , Spaced -> list  # 2^2,2 1^2
  | Cell ␣Cell -> list
  | Bracketed ~Bracketed -> list
Inners = Inner ; Inner -> list
Pair "two partitions" = Cells|Inners
  | { Sub } { Sub } -> list 2 5
Bracketed = Round|Square
Down2 = ~_ ~{ Pair }
Monomial = XPower
  | Monomial *|·? XPower -> join
XPower = XLetter -> part
  | XLetter Degree -> part
OfMonomial = Monomial -> monomial
CoefName = LrName coefficient|number -> ""
Coefficient = c Above Down2 -> coef
  | c Down2 Above -> coef 3 2
  | c|LR ~( Cell ; Cells ) -> coef 3 5
  | c|LR ~( Inner ; Inners ) -> coefWithPair 3 5
  | c|LR ~( Cells ; Cell ) -> coefWithPair 5 3
  | c ~( Cell , Cells ) -> coefWithPair
Question = CoefName? for? of? Coefficient
  | CoefName for? of? Cell ,|;|: Pair -> coefWithPair
  | CoefName for? of? Both in Arg -> coef 6 4
  | lrcoefficient [ Lam , Lams ] -> coefWithPair
  | c Down2 AllNu? -> ? product 2  # no outer partition: all of them
  | c Down2 AllAbove AllNu? -> product 2
  | c AllAbove Down2 AllNu? -> product 3
  | SkewOfC -> skew
  | c Above Down2 -> ? ofSchubert  # c^{231}_{132,213}
  | c Down2 Above -> ? ofSchubert 3 2
SkewOfC = c Above ~_ ~{ Cell ,? Greek } -> list 2 5
AllNu = for all Greek -> ""
AllAbove = ~^ Greek -> ""
  | ~^ ~{ Greek } -> ""
CoefOf = plethysm? coefficient|multiplicity|mult of? -> ""
  | CoefName of? for? -> ""
Question = CoefOf Atom|OfMonomial in Term -> coefficientIn
  | CoefOf Atom in product of? And|Term -> coefficientIn 2 6
  | how many|often ·? does Atom occur|appear in Term -> coefficientIn 5 8
  | CoefOf Atom in Plethysm -> coefficientInPlethysm
  | [ Atom ] Sum -> coefficientIn  # [s_λ] s_μ s_ν
  | CoefOf Arg in Twice -> coef
  | CoefOf Arg in Tensor -> coefNot0  # (a Kronecker coefficient has other sizes)
  | CoefOf S|V Index in Tensor -> coefNot0
  | CoefOf S Above in Specht -> coefNot0
  | CoefOf S Above in ind ( Specht ) -> coef
  | mult|multiplicity of? weight Arg in V Index -> ? kostkaNot0 7 4  # or by labels of Dynkin
  | weight multiplicity of? Arg in V Index -> kostkaNot0 7 4
  | weight multiplicities of? V OfIndex -> ? expand m
  | weight multiplicities of? V OfIndex ForGl -> ! expand m 5
Kostka = K|kostka ~( Pair ) -> kostka
  | K ~_ ~{ Greek ,? Cell } -> allKostka h
  | K ~_ ~{ Cell ,? Greek } -> allKostka m
  | K|kostka ~( Inner ; Inner ) -> kostkaOf  # K(3,1; 2,2)
  | K Down2 -> kostka  # K_{31,1111}
  | K ~_ ~{ Shapes ,? Cell } -> kostkaSkew 4 6
KostkaName = kostka number|numbers|coefficient? of? for? -> ""
Question = Kostka
  | KostkaName Kostka
  | Symmetrica? kostka_number ( Lams ) -> kostka  # Sage
  | kostkanumber [|( Lams ]|) -> kostka
  | KostkaName Pair -> kostka
  | KostkaName OfShape? Arg OfContent Arg -> kostkaOf
  | KostkaName Arg and Arg -> kostkaOf
  | kostka Blanks -> ! kostkaAll  # kostka 3 1 1 1 1 1: where the sizes fit
  | all? kostka numbers of? for? OfArg -> expand m
Count = number of all? -> ""
  | how many -> ""
  | hash|count -> ""
Symmetrica = symmetrica . -> ""
Cardinality = . cardinality ( ) -> ""
Semistandard = ssyt|ssyts -> ""
  | semistandard|column -? strict? young? tableaux -> ""
Entries = ,|with? entries ≤ -> ""
  | ,|with? entries at most -> ""
Standard = syt|syts -> ""
  | standard young? tableaux -> ""
OfShape = of|for -> ""
  | of|have|with|having? skew? shape -> ""
  | of? skew? shape? Greek / Greek = -> ""
OfContent = ,|and|with? content|weight|type -> ""
Question = Count Semistandard OfShape? Arg OfContent Arg -> kostkaOf 4 6
  | Count Semistandard OfShape? OfArg Entries NUM -> inGl
  | Count Semistandard OfShape? Skew OfContent Arg -> kostkaSkew 4 6
  | Count Standard OfShape? Arg -> orSize 4  # #SYT(5): of a shape, or of a size
  | Count tableaux OfShape? Arg -> ? standardOf 4  # standard, or semistandard
  | standardtableaux ( Square ) Cardinality -> standardOf
  | semistandardtableaux ( Square , Square ) Cardinality -> kostkaOf
  | semistandardtableaux ( shape = Square , eval = Square ) Cardinality -> kostkaOf
  | len ( standardtableaux ( Square ) ) -> standardOf
  | partition ( Square ) . dimension ( ) -> standardOf
  | Count Standard OfShape? Skew -> standardSkew 4
  | Count syt ( Arg ) -> standardOf 4
  | numberoftableaux [ Lam ] -> standardOf  # Mathematica
  | | syt ( Arg ) | -> standardOf
  | | ssyt ( Lams ) | -> kostka
  | all? Semistandard OfShape? Arg OfContent Arg -> ! kostkaOf
  | all? Semistandard OfShape? Skew OfContent Arg -> ! kostkaSkew
  | ssyt ( Inner , Inner ) -> ! kostkaOf
  | all? Standard OfShape? Arg -> ! standardOf
Question = f Upper -> orSize  # f^{(3,2,1)}
  | f ~^ ~Digits -> ? standardOf  # f^2: or a square
  | f ~^ ~{ Shapes } -> standardSkew 4
  | f Lower -> ? standardOf
  | hook -? length formula of|for|:? dimension? of? Arg -> standardOf 8
  | dimension of? specht module? Arg -> standardOf 5
  | dimension of? specht module? S Upper -> standardOf 6
  | dimension of? S Upper -> orSize
  | dimension of? S ~^ ~Digits -> ? standardOf
  | dimension of? irrep|representation|module|irreducible specht|representation|module? Arg -> ? standardOf 5  # of which group?
  | dimension of? Irreducible? Labelled? OfSize -> standardOf
  | dimension of? Arg -> ? standardOf 3
Labelled = labelled|labeled|indexed by? -> ""
Irreducible = irrep|representation|module -> ""
  | irreducible|specht representation|module? -> ""
OfS = of|for symmetric? group? Sn
OfSize = Arg OfS -> ofSize 2 1
  | Sn -? representation|module|irrep Labelled? Arg -> ofSize 1 5
  | OfS of|for? Arg -> ofSize
  | OfS Labelled Arg -> ofSize
Character = irreducible? character of? -> ""
  | value of character of? -> ""
  | character value of? -> ""
Value = value of -> ""
Module_ = Arg
  | Irreducible Labelled? Arg
  | for Arg
  | OfSize
AtClass = evaluated? at|on|for cycle|conjugacy? type|class? of? cycle? type? -> ""
Cycle = NUM - cycle
  | transposition -> word "2"
  | identity -> word "1"
AboveOfS = Above OfS -> ofSize 2 1
OfLower = Lower -> atom s
Number_ = Lowered|Degree -> list
Question = χ Above ~( Inside ) -> characterOf  # χ^{31}(22)
  | χ Above ~( Round|Square ) -> characterOf
  | χ Above Lower -> characterOf
  | χ Lower Above -> characterOf 3 2  # which one is the irreducible?
  | χ Lower Above -> characterOf
  | χ Lower ~( Inside|Round ) -> characterOf
  | χ OfLower ~( Ones ) -> inGl  # of GL_n
  | χ ~( Inner ; Inner ) -> characterOf
  | χ Above -> ? characterOnly
  | χ ( Lam , Lam ) -> characterOf  # Maple
  | χ Square Square -> characterOf
  | χ Round Round -> characterOf
  | Symmetrica? charvalue ( Lam , Lam ) -> characterOf
  | Character|Value? χ Above|AboveOfS AtClass Arg -> characterOf 3 5
  | Character|Value? χ Above AtClass Cycle -> characterAtCycle 3 5
  | value of Lam AtClass Arg -> ? characterOf
  | Character Module_ AtClass Arg -> characterOf
  | Character Module_ AtClass Cycle -> characterAtCycle
  | Character S Above AtClass Arg -> characterOf
  | Character Module_ -> ? characterOnly
  | < Sum , Sum > -> inner
  | Atom . scalar ( Sum ) -> inner  # Sage
  | ( Sum , Sum ) -> ? inner
  | scalar|hall inner? product of Sum and Sum -> inner
  | inner product of Sum and Sum -> ? inner  # or the internal product
# ---------------------------------------------------------------- Schubert polynomials
PSub = Inside -> orSimple
  | Simple -> simple
  | OrCode|Square
Digit "a number" = NUM -> digits
Perm "a permutation" = ~_ ~{ PSub }
  | ~_ ~Digit -> orSimple
  | ~_ ~OrCode|Square
  | ~OrCode|Square
  | ~( Square )
  | ~[ { Inside } ]
  | ~NUM -> digits
  | ~NUM ~, ~Tight -> ? join  # S10,1,2,..
SPoly "a Schubert polynomial" = Sch|schubert Perm
  | symmetrica? .? t_schubert_polynom ( SPoly )
  | 𝔖 Perm ~( x )
  | 𝔖 Perm ~( Letters ) -> schubertIn  # in as many letters as it has, or more
  | S Perm ~( x ) -> ? 2  # or a Schur polynomial
  | S Perm ~( Letters ) -> ? schubertIn
  | schubertpolynomialring ( Ring ) ( Square )
  | SPoly . expand ( )
  | { Sch } Perm  # {\mathfrak S}_w
  | X ~Square  # Sage
  | X ~( Square )
  | schubert polynomials of? SPoly
DPoly = SPoly ~( x ; y )
  | SPoly ~( x , y ) -> typedWith xy  # or the polynomial in two variables
SPolys = SPoly -> list
  | SPoly Exp -> listPower
  | SPolys *|·|∪|∩? SPoly -> add
  | SPolys ⊗|∗ SPoly -> ? add  # or the outer, or the quantum product
DPolys = DPoly -> list
  | DPolys Dot? DPoly -> add
  | DPoly Exp -> listPower
Flags = Fl ( NUM )
  | Fl Lowered
InFlags = in? cohomology? of? Flags
  | in? H Star ~( Flags )
InEquivariant = in? H ~_ T ~^ ~Ast ~( Flags ) -> ""
FlagClass = σ Perm
  | [ X Perm ]
FlagClasses = FlagClass Dot? FlagClass -> list
  | FlagClass Exp -> listPower
FlagPair = FlagClass By FlagClass -> list
Monk = schubert structure constants|coefficients of|for|:? -> ""
  | monk rule|formula? of|for|:? -> ""
  | schubert polynomials? product|multiplication of|for|:? -> ""
OfW = w = -> ""
  | F ~_ w for|with w = -> ""
  | permutation -> ""
OrCode = Round -> orCode
InSchubert = In schubert polynomials|basis|classes -> ""
Question = SPolys -> schubertProduct
  | Convert? SPolys InSchubert -> schubertProduct 2
  | Monk WOther -> permuted schubmult
  | InFlags :|, SPolys -> inFlags 3 1
  | FlagClasses -> ? permuted schubmult
  | FlagClasses InFlags -> ? inFlags  # of u, or of w_0 u
  | Compact *|· Compact -> ? permuted schubmult
  | product|multiply of? Compact By Compact -> ? permuted schubmult
  | product of? schubert classes FlagPair InFlags -> ? inFlags
  | multiply SPolys By SPoly -> permuted schubmult 2 4
  | multiply schubert polynomials of? for? WOther -> permuted schubmult
  | double schubert polynomials|product DPolys -> permuted dschubmult
  | product of? double schubert polynomials of? for? WOther -> permuted dschubmult
  | equivariant product of? schubert? classes? WOther InEquivariant? -> ? permuted dschubmult 6
  | symmetrica . mult_schubert_schubert WOther -> permuted schubmult
  | OfS_ -> ? bare  # S_{321}: of Schubert, or of Schur
  | OfS_ ~( x ) -> ? bare
  | SPolys InFlags -> inFlags
  | SPolys InEquivariant -> ? permuted dschubmult
  | DPolys -> doubleProduct
  | product of? schubert? polynomials? SPolys By SPoly -> permuted schubmult 5 7
  | schubmult_py WOther -> permuted schubmult
  | lrcalc . mult_schubert WOther -> permuted schubmult
  | product of? schubert polynomials of? for? WOther -> permuted schubmult
  | schubert polynomials of? for? OfW? WPerm -> permuted schubert 6
  | F Perm -> ? stanleyOf  # F_{321}: of Stanley, of w or of its inverse, or fundamental
  | F Perm InVariables -> ? stanleyOf
  | Convert? F Perm InSchur -> ? stanleyOf
  | Convert Stanley F Perm InSchur? -> stanleyOf 4
  | Convert Stanley of? for? OfW? WPerm InSchur? -> stanleyOf 6
  | Stanley F Perm InSchur -> stanleyOf
  | edelman - greene coefficients|numbers|expansion of? for? OfW? WPerm -> stanleyOf 8
  | permutation ( Square ) . stanley_symmetric_function ( ) -> ? stanleyOf
  | F Perm ~( Letters ) -> ? stanleyOf
  | Stanley F Perm -> stanleyOf
  | Count reduced words of|for? OfW? WPerm -> ! stanleyIn
  | Count pipe dreams of|for? OfW? WPerm -> ! permuted schubert
  | Stanley F Perm InVariables -> stanleyOf
  | Stanley of? for? OfW? WPerm -> stanleyOf 5
  | Stanley of? for? OfW? WPerm InVariables -> stanleyOf 5 6
InSchur = In s -> ""
  | In schur functions|polynomials|basis? -> ""
Letters = XLetter -> nextLetter "0"
  | Letters , XLetter -> nextLetter
  | Letters , . . . , XLetter -> 7
XLetter = x ~_ ~NUM
  | x ~NUM
Stanley = stanley symmetric? functions? -> ""
  | stable schubert polynomials -> ""
# ---------------------------------------------------------------- the Grassmannian
CPower = C Degree
GrOf "Gr(k,n)" = Gr ~_ ~{ NUM , NUM } -> grassmannian
  | Gr ( NUM , NUM ) -> grOrLines  # Gr(1,3): a plane, or the lines of P^3
  | Gr|G ( NUM , CPower ) -> grassmannian  # Gr(2,C^5)
  | Gr|G Lowered ( CPower ) -> grassmannian
  | Gr Lowered ( NUM ) -> grassmannian
  | grassmannian Gr? ( NUM , NUM ) -> grOrLines
  | 𝔾 ( NUM , NUM ) -> subspaces  # of projective subspaces, or as Gr
  | grassmannian? G|𝔾 ( NUM , NUM ) -> grassmannian
  | grassmannian? G ( NUM , NUM ) -> subspaces
  | P Degree -> boxOf "1"  # P^2
  | Gr|G ( NUM , NUM ) -> ! grassmannian 5 3
Star = ~Ast -> ""
  | ~^ ~Ast -> ""
  | ~^ ~{ ~Ast ~} -> ""
  | ~^ ~{ NUM } -> ""
InField = , Z|ℤ|Q|ℚ|C|ℂ -> ""
KAndN = NUM , NUM -> grassmannian
Small = small? quantum cohomology ring? -> ""
Space "Gr(k,n)" = GrOf
  | H|A Star ~( GrOf InField? ) -> space ordinary 4
  | CH Star? ~( GrOf InField? ) -> space ordinary 4
  | cohomology|chow ring? of GrOf -> space ordinary 4
  | QH Star? ~( GrOf InField? ) -> space quantum 4
  | Small of? GrOf -> space quantum
  | QH ( KAndN ) -> ? space quantum
  | qcoh of? GrOf -> space quantum
Where = Space
  | in|of|for|on Space
QWhere = Where -> space quantum
OWhere = Where -> space ordinary
QPower = q -> word "1"
  | q Degree
PointClass = point class? -> point
  | [ pt ] -> point
Class "a class" = σ|s Index
  | Lam
  | [ X|Ω Index ] -> ? 3  # of this codimension, or dimension
  | PointClass
  | hyperplane class? -> copies "1" "1"
  | h|H|x -> ? copies "1" "1"
  | σ ~_ ~□ -> copies "1" "1"
  | c ~_ ~NUM ~( Q ) -> list  # Chern classes of the quotient, and of the dual of the sub-bundle
  | c ~_ ~NUM ~( S ~^ ~Ast ) -> copies "1"
ClassPower = Class -> list
  | σ IndexPower -> ? list
  | Class Exp -> listPower
Classes = ClassPower
  | Classes ·|⊗|∩ ClassPower -> addAll
  | Classes * ClassPower -> addAs times  # in a Gr(k,n): the product of H*, or the quantum product
  | Classes Cup ClassPower -> addAs cup  # that of H*, or the quantum product
  | Classes ∗ ClassPower -> addAs star  # the quantum product, or that of H*
  | Classes ClassPower -> addAll
ClassPair = Classes By Classes -> addAll
ProductOf = product of? -> ""
  | intersection? product of? schubert classes -> ""
  | intersection product of? -> ""
  | multiply -> ""
QName = small? quantum product|multiplication|multiply|pieri|monk rule? of|for? -> ""
  | quantum schubert calculus -> ""
  | quantum LrName coefficients|product|rule of|for? -> ""
LrName = LR|lr -> ""
  | littlewood - richardson -> ""
ProductOfPair = ProductOf ClassPair
  | cup ProductOf ClassPair|Classes -> typedWith cup
Stop = ,|:|; -> ""
OneClass = Class Squared -> listPower
Numbers = Digits *|· Digits -> list
  | Numbers *|· Digits -> add
Question = Classes Equals? Stop? Where -> classesIn
  | OneClass Where -> classesIn
  | Numbers Where -> ! classesIn  # 2*1 in QH*(Gr(2,4))
  | Where Stop? Numbers -> ! classesIn 3 1
  | NUM *|·? Classes ,? Where -> ! classesIn 3 5  # a factor in front
  | Where Stop? Classes|ProductOfPair -> classesIn 3 1
  | ProductOfPair ,? Where -> classesIn
  | product of? Both Where -> classesIn
  | QName Both|ClassPair QWhere -> classesIn
  | QName ~:? Classes QWhere -> classesIn
  | quantum ~: Classes QWhere -> classesIn
  | Classes mod q ,? OWhere -> classesIn
  | q - term|coefficient of? Classes QWhere -> ? classesIn
  | ∫ ~_ ~{ GrOf } Classes -> integral 6 4
  | ∫ ~_ ~GrOf Classes -> integral 4 3
  | Classes Where ,? coefficient of PointClass -> integral 1 2
  | coefficient of? PointClass in Classes Where -> integral 5 6
  | coefficient of? Class in Classes Where -> classCoefficient
  | coefficient of? QPower Class in Classes QWhere -> classCoefficient 4 6 7 3
  | intersection number of? Classes Where -> integral 4 5
  | GwName? < Class , Class , Class > ~_ ~{ d = NUM } Where -> invariant
  | GwName? < Class , Class , Class > ~_ ~NUM Where -> invariant
  | degree of? GrOf Embedded? -> degree 3
  | degree of? plücker embedding of GrOf -> degree
  | Count lines Meeting NUM general|given? lines in P ~^ ~NUM -> lines 4 10
  | Count lines in P ~^ ~NUM Meeting NUM general|given? lines -> lines 8 6
  | Count lines in NUM - space Meeting NUM general|given? lines -> lines 8 4
  | Count NUM - planes in C ~^ ~NUM Meeting NUM general|given? NUM - planes nontrivially? -> planes 2 8 10 12
  | Classes in Gr|G ( k , n ) -> ! product 1
Equals = = ?? -> ""
Embedded = in|under plücker embedding -> ""
GwName = gromov - witten invariant of? -> ""
Meeting = meet|meeting|intersecting -> ""
SProduct2 = σ Index -> list
  | σ Index Exp -> listPower
  | SProduct2 Dot? σ Index -> add 1 4
SigmaPair = SProduct2 By SProduct2 -> addAll
Braced = { Inside } -> typedWith braces
ListFactor = Round|Square|Braced -> list
  | Round Exp -> listPower
ListProduct = ListFactor *|· ListFactor -> addAll  # (2,1)*(2,1)
  | Braced . Braced -> list  # SCHUR
  | ListProduct *|· ListFactor -> addAll
  | ListFactor ∗ ListFactor -> ? addAll  # or the internal product
  | ListProduct ∗ ListFactor -> ? addAll
  | Round Exp -> listPower  # (2,1)^2
Reflection = s Lowered -> list
  | s ~NUM -> list
Reflections = Reflection *|·? Reflection -> list
  | Reflections *|·? Reflection -> add
Braces = { Inside } * { Inside } -> list 2 6
Juxtaposed = Round Round -> list
  | Juxtaposed Round -> add
Other = Reflections -> product  # s_1 s_2: of s, or of simple transpositions
  | Braces -> product  # {2,1}*{2,1}: of Littlewood, or his inner product
  | χ Number_ ~( Inside ) -> characterOf  # χ_3(2,1): or the third row of a table, or a power
  | χ Number_ Number_ -> characterOf
  | Character? χ Number_ AtClass Arg -> characterOf
Question = SProduct2 -> ! product  # σ_1^4: no Gr(k,n) is said
  | ProductOf SigmaPair -> ! product
  | ProductOf SigmaPair in grassmannian -> ! product 2
  | ListProduct -> listProduct
  | ListProduct InVariables -> product
  | Juxtaposed -> ? product  # (3,1)(2): a product of s, or of cycles
  | Other -> orOther  # which is not computed here
# ---------------------------------------------------------------- modules of GL_n and of S_n
Indexed = s Index -> typedWith index
  | V Index
  | S Index V_ -> typedWith index
TensorOf = tensor product? decomposition? of? -> ""
TensorPair = Indexed By Indexed -> list
  | Lam By Lam -> list
  | Lam *|·|⊗|,? Lam -> list
IntoSum = into|in|as -> ""
  | into|as sum of -> ""
Irreducibles = IntoSum irreducible|irreducibles|irreps representations|components|constituents|modules|characters? -> ""
Tensor = ListFactor|Tensor ⊗ ListFactor -> addAll
  | Indexed ⊗ Indexed -> list
  | Tensor ⊗ Indexed -> add
Functor "a functor" = Powers
  | Schur_
Schur_ = S Above|Index -> atom s 2
Powers = sym Degree -> functor h
  | symmetric square of? -> functor h "2"
  | exterior square of? -> functor e "2"
  | symmetric cube of? -> functor h "3"
  | exterior cube of? -> functor e "3"
  | Λ Degree -> functor e
V_ = V -> ""
  | C ~^ ~n -> ""
  | ( V ) -> ""
Cn = CPower
  | ( CPower )
Vector = V -> copies "1" "1"
OneV = Vector -> atom s
Module = OneV
  | Functor V_
Modules = Module|Modules ⊗ Module -> timesText
  | Functor ( V_ ) ( Functor V_ ) -> ? timesText
  | OneV TensorPower -> powerOf
TensorPower = ~^ ~{ ⊗ NUM } -> list 4
Composite = Functor ( Functor V_ ) -> composed
  | Functor ( V_ ) ( Functor V_ ) -> ? composed
  | Functor Functor V_ -> composed
  | Functor ( Modules ) -> composed
CompositeIn = Functor ( Functor Cn ) -> composed 1 3
GlOf = GL|U Lowered
  | GL|U ( NUM )
  | GL ~NUM
  | GlOf ~( C )
  | GL ( NUM , C )
ForGl = for|of|in|over|,? GlOf
  | as a? GlOf -? representations|representation|modules|module|characters
  | ,|for|with|if|and dimension V = NUM
ForV = for|of|over|under GL ( V ) -> ""
  | as a? GL ( V ) -? representations|representation|module|modules -> ""
Specht = S Above ⊗ S Above -> list 2 5
  | Specht ⊗ S Above -> add 1 4
Young = Sn *|· Sn -> list
  | Young *|· Sn -> add
YoungIn = Young to Sn -> ofSize 3 1
IndFrom = ind ~_ ~{ Young }
  | ind ~_ ~{ Young } UpTo -> ofSize 6 4
Spechts = S Above *|·|⊠|⊗|By S Above -> list 2 5
SpechtsTo = Spechts to Sn -> ofSize 3 1
Induce = induction product of? -> ""
  | induce -> ""
UpTo = ~^ ~{ Sn }
Into = ForV -> ""
  | Irreducibles ForV? -> ""
  | in|into schur functions|functors -> ""
Product_ = product of? -> ""
  | TensorOf -> ""
Littlewood = ListFactor ⊗ ListFactor -> littlewood
FunctorOf = Functor of Powers|Atom -> composed
  | Functor of Schur_ -> ? composed  # or of a Specht module
ModulePair = Module By Module -> timesText
Restrict = restriction|restrict|res of? specht? module? -> ""
Sn = S Lowered
Pair_ = young subgroup|subgroups -> ""
  | young? subgroup|subgroups? SAny *|· SAny -> ""
SAny = Sn -> ""
  | S ~_ k -> ""
  | S ~_ ~{ NUM - k } -> ""
  | S ~_ ~{ n - k } -> ""
Question = Tensor -> ! product  # of modules of GL
  | Littlewood -> ! plethysm s  # {2}⊗{3}: h_3[h_2]
  | Product_? Tensor Irreducibles? ForGl Irreducibles? -> ofGl 2 4
  | GlOf Stop? Product_? Tensor -> ofGl 4 1
  | TensorOf TensorPair ForGl -> ofGl
  | TensorOf TensorPair -> ! product
  | GlOf Stop? TensorOf TensorPair -> ofGl 4 1
  | clebsch - gordan TensorOf? ForGl ~: TensorPair -> ofGl 7 5
  | Modules Into? -> inSchur 1
  | Modules Irreducibles? ForGl -> product 1 3
  | TensorOf ModulePair ForGl -> product
  | Composite Into? -> plethysm s 1
  | FunctorOf -> plethysm s
  | CompositeIn Into? -> ! plethysm s 1
  | Specht -> ? product  # induced, or the Kronecker product
  | ind ~( Specht|Spechts ) -> product
  | Induce Spechts|SpechtsTo -> product
  | Induce Spechts from YoungIn -> induced 4 2
  | ind ~_ ~{ Sn } UpTo S Above -> inducedByOne 4 6 8
  | ind UpTo ~_ ~{ Sn } S Above -> inducedByOne 5 2 8
  | Restrict S Above to|on Sn -> restricted 5 3
  | Restrict S Above to|on Pair_ -> ? coproduct 3
  | IndFrom Specht -> induced
  | IndFrom ( Specht ) -> induced
  | IndFrom NUM -> permutationModule
  | res UpTo? ~_ ~{ Sn } S Above -> restricted 5 8 2
  | res UpTo? ~_ ~{ Young } S Above -> ? coproduct 8
  | res ~_ ~{ Sn } UpTo S Above -> restricted 4 8 6
  | Permutations -> ? expand s
  | Permutations ModulesOf -> expand s 1
Permutations = M Above -> atom h
ModulesOf = in|into|to specht|irreducible? modules -> ""
Fused = Tensor|Both
LieName = su|SU|sl|SL -> ""
  | widehat ~{ su|sl } -> ""
Lie = LieName ( NUM )
  | U ( NUM ) -> ? 3
  | LieName ~NUM
  | LieName Lowered
Level = at|, level NUM
  | , k = NUM
  | level NUM
  | ~_ ~NUM
TypedLists = Lam Lam -> list
FusionOf = verlinde|fusion fusion? product|rule|rules|coefficients|algebra|formula|ring? of|for|:? -> ""
Question = Fused for|of|in|,? Lie Level -> fusionFor
  | level NUM Lie FusionOf? Fused -> fusionFor 5 3 2
  | FusionOf Fused for|of|in|,? Lie Level -> fusionFor
  | FusionOf? Lie Level Stop? FusionOf? Fused -> fusionFor 6 2 3
  | FusionOf? Lie Level Stop? TypedLists -> fusionFor 5 2 3

# ---------------------------------------------------------------- the arguments of a command
Operand = Lam -> operand list
  | Letter
Letter = TypedLetter -> operand list
TypedLetter = s|σ Index -> typedWith index
  | s|σ IndexPower -> ? typedWith index  # or a power
Times = Lam Exp -> operandPower  # (2,1)^2
  | s|σ Index Exp -> operandPower
Any "a list" = Operand|Times
  | Blanks -> operand blanks
  | Tightly|Loosely -> operand commas
  | Compact -> operandDigits
Cut = Operand|Times
  | Tightly -> operand commas
  | Compact -> operandDigits
  | Blanks -> ? operand blanks  # 2,1 1,1 as 2 · (1 1) · 1
Loose = Cut
  | Blanks -> operand blanks
Beside = Operand|Times
  | Tightly|Loosely -> operand commas
  | Compact -> operandDigits
Dash = Any ␣- ␣Any -> list
  | Dash ␣- ␣Any -> add
DashTight = Any - Any -> ! list  # 2 1 -1: a sign right before a number
  | DashTight - Any -> add
Star_ = Any *|·|∗|⊗ Any -> list
  | Star_ *|·|∗|⊗ Any -> add
Comma = CommaA|CommaB
CommaA = Cut , Cut -> list
  | CommaA , Cut -> add
CommaB = Loose , ␣Loose -> list  # 2 1, 2 1
  | CommaB , ␣Loose -> add
CommaC = Loose , Loose -> list  # in the parentheses of a call: mult(2 1,2 1)
  | CommaC , Loose -> add
Call = CommaC -> factorsOf comma
Side = Beside ␣Beside -> list
  | Operand Letter -> list
  | Beside Beside -> ! list  # 3,2(1)
  | Side Beside -> ! add
  | Adjacent Adjacent -> list
  | Side ␣Beside -> add
  | Side Letter -> add
  | Side ~Adjacent -> add
Adjacent = Lam -> operand list
SideComma = Side , Cut -> add  # (2,1) 1, 1
Factors "lists" = Dash -> factorsOf dash
  | - ␣Any -> ? emptyFirst  # an empty list first
  | SideComma -> ? factorsOf comma
  | DashTight -> factorsOf dash
  | Star_ -> factorsOf star
  | Comma -> factorsOf comma
  | Side -> factorsOf side
  | ( Call )
  | ( Side ) -> factorsOf side
  | ( Dash ) -> factorsOf minus  # (s_1 - s_2): or a difference
  | ( Star_ ) -> factorsOf star
  | Times -> factorsOf star
Opt = Rows
  | -m -> word -m
Rows "the number of variables" = -r NUM -> variables
  | in NUM variables -> variables
  | , maxrows = NUM -> variables  # lrcalc in Python
Command = mult Opt? Opt? Factors Opt? Opt? -> mult
  | mult ( Call Rows ) -> mult
  | LrCall Factors -> mult
  | lr_tensor Factors -> productOfGl  # LiE: of GL_n, with n numbers in each list
  | LrCall [ Lams ] -> product
  | mult Factors ,|:? Where -> productIn
  | mult Where ,|:? Factors -> productIn 4 2
  | mult Skew -> ! skew  # mult (2,1)/(1)
  | mult Scaled -> ! expand s
  | mult SProduct -> ? product  # S: of Schur or of Schubert
  | mult SPolys -> ? schubertProduct
LrCall = lrmult|lrrule|littlewoodrichardson|littlewoodrichardsonrule -> ""  # LiE and others
OfLam = Lam -> atom s
OfAny = AnyList -> atom s
OfOperand = OperandList -> atom s
Scaled = Scalar ~OfLam -> timesText  # mult 2(2,1) - 1: a coefficient
  | Scalar ~SAtom -> timesText
  | Negative|Scaled ␣- ␣OfAny -> timesText
  | Scaled Dot? OfOperand -> timesText
Negative = Minus OfOperand -> written ""
Command = coef|lrcoef|LR Factors -> coefOf
  | coef|coefficient of? OperandList in StarLists -> coef
  | coef StarLists OperandList -> coef 3 2  # coef (2,1)*(2,1) (3,2,1): the product is one thing
  | skew Opt? Shape Opt? -> skewWith
  | coprod One -> coproduct
AnyList = Any -> listOf
OperandList = Operand -> listOf
StarLists = AnyList *|·|∗|⊗ AnyList -> list
  | StarLists *|·|∗|⊗ AnyList -> add
Skew "a skew shape" = AnyList Over AnyList -> list
  | ( AnyList Over AnyList ) -> list
  | [ AnyList Over AnyList ] -> list
Shape "a skew shape" = Skew
  | Factors -> shapeOfTwo
  | AnyList ␣- ␣AnyList -> ! list  # skew (3,2,1) - (2,1)
  | [ Square , Square ] -> list
One = AnyList
  | ( AnyList )
Box = NUM ,? NUM -> boxOf
BoxOrN = Box
  | NUM ,? NUM -> fitting  # 2 4: of k and n-k, or of k and n
Command = quantum QWhere ,|:? Factors -> productIn 4 2
  | quantum Factors QWhere -> productIn
  | quantum QWhere ,|:? Box Factors -> ? productIn 5 2 4  # the numbers of Gr(k,n) once more
  | quantum Box Factors QWhere -> ? productIn 3 4 2
  | quantum Boxes Factors -> productIn 3 2  # quantum 2 2 (2,1) (2,1)
  | quantum ( Boxes|QWhere , Call ) -> productIn 5 3
  | quantum ( Boxes ) Factors -> ! productIn 5 3
  | quantum NUM Factors -> ! quantumLeast 3 2  # n-k is missing
  | quantum Factors -> ! quantumLeast  # k and n-k are missing
  | fusion NUM NUM Factors -> fusionOf 4 2 3
  | fusion ( NUM , NUM , Call ) -> fusionOf 7 3 5
  | fusion Lie Level :? Factors -> fusionFor 5 2 3
  | fusion Factors for|of|in? Lie Level -> fusionFor
  | fusion ( NUM , NUM ) Factors -> ! fusionOf 7 3 5
  | fusion NUM Factors -> ! fusionOf 3 2
  | fusion Factors -> ! fusionOf
WPerm "a permutation" = WLetters|OrCode  # (4,2): a cycle, or a code
WLetters = Square
  | permutation ( Square )
  | ( permutation ( Square ) )
  | ( { Inside } )
  | { Inside }
  | Compact|Commas|Blanks
  | CycleList -> cycles  # (1 2)(2 3): from the right, or from the left
  | ( Square )
  | Sch Perm
  | σ ~Index -> ! 2
  | Simple -> simple
Simple = s ~_ ~Digit  # s_1 s_2: simple transpositions; s_12: these two, or one
  | Simple *|·? s ~_ ~Digit -> join
CycleList = Round Round -> list
  | CycleList Round -> add
WOther "two permutations" = ( Square , Square ) -> list
  | ( Compact , Compact ) -> list
  | ( OrCode , OrCode ) -> list
  | WPerm ␣- ␣WPerm -> list
  | WPerm *|· WPerm -> list
  | WPerm WPerm -> list
  | WPerm ,|and WPerm -> list
Command = schubert WPerm -> permuted schubert
  | growth WPerm -> permuted growth
  | schubmult WOther -> permuted schubmult
  | dschubmult WOther -> permuted dschubmult
  | stanley -r NUM WPerm -> stanleyIn 4 3  # with its option as the program has it
  | stanley WPerm -r NUM -> stanleyIn
  | stanley InVariables WPerm -> stanleyOf 3 2
  | stanley ( NUM , WPerm ) -> stanleyOf 5 3
  | rsk Word -> rsk
Word "a word" = WLetters
  | Round -> roundPermutation
  | w = Word
  | word? Blanks -> lettersOf  # 11 22: the word 1122, too
  | word InTurn
  | permutation Word
  | empty word -> list
Question = fomin? growth diagram of? for? permutation? OfW? WPerm -> permuted growth 8
  | permutation ( Square ) . robinson_schensted|left_tableau|right_tableau ( ) -> rsk
  | P ~( Word ) ,|and Q ~( Word ) -> ? rskTwice  # or functions P and Q
  | ( P , Q ) of|for Word -> rsk
  | Rsk of|for|to|on? Word -> rsk
  | P and|, Q tableaux|tableau? of|for Word -> rsk
  | P|Q ~( Word ) -> ? rsk  # or a function P of Hall and Littlewood
InTurn = Inside|Round|Square|Part
Rsk = rsk correspondence|insertion|tableaux? -> ""
  | row|schensted insertion|insert -> ""
  | robinson - schensted -? knuth? correspondence|insertion? -> ""
  | insertion|recording|P|Q tableau -> ""
  | insertion|recording tableaux -> ""
TRow = Square|Round
  | [ ] -> list
TRows = TRow -> list
  | TRows ,? TRow -> add
YRow = NUM -> letters
YRows = YRow -> list
  | YRows , YRow -> add
ARow = NUM -> list
  | ARow & NUM -> add
ARows = ARow -> list
  | ARows \\ ARow -> add
BRow = NUM -> list
  | . -> list
  | BRow ␣NUM -> add
Slashes = BRow / BRow -> list
  | Slashes / BRow -> add
Run = NUM -> list
RunRow = Run -> list
OneRow = Square|Blanks
Tableau "a tableau" = [ TRows ]
  | ( TRows )
  | young ( YRows )  # \young(13,2)
  | young { YRows }
  | ytableau ARows ytableau
  | tableau { TRows }
  | tableau ( [ TRows ] )  # Sage
  | Slashes -> typedWith run  # 12/3: the rows 1 2 and 3, or 12 and 3
  | [ Slashes ] -> typedWith run
  | RunRow -> typedWith run
  | OneRow -> list
  | . -> list
Gap = none|. -> word .
SCell = Gap|NUM
SCommas = SCell -> list
  | SCommas , SCell -> add
SBlanks = SCell -> list
  | SBlanks ␣SCell -> add
SkewRow = [ SCommas ]
  | ( SCommas|SBlanks )
  | [ ] -> list
SkewRows = SkewRow -> list
  | SkewRows ,? SkewRow -> add
SSlashes = SBlanks / SBlanks -> list
  | SSlashes / SBlanks -> add
SkewTableau "a skew tableau" = [ SkewRows ]  # [[None,1],[1,2]], Sage
  | skewtableau ( [ SkewRows ] )
  | SSlashes -> typedWith run
  | with rows SkewRows
RectName = rectification|rectify|rect|jdt of|on|:? -> ""
  | jeu de taquin rectification? of|on|:? -> ""
Question = RectName skew? tableau? SkewTableau -> rectOfSkew
  | RectName ( SkewTableau ) -> rectOfSkew
  | SkewTableau . rectify ( ) -> rectOfSkew
  | rectification of Tableau of|, shape? Skew -> shaped rect - 6 3
  | word with PAndQ
  | which? permutation|word has|with PAndQ under? rsk?
  | rsk ~^ ~{ - NUM } PAndQ -> 7
  | rsk_inverse PAndQ  # Sage
  | inverse rsk of|for? PAndQ
  | rsk inverse of|for? PAndQ
PAndQ = ( Tableau , Tableau ) -> unrsk
  | Tableau and|, Tableau -> unrsk
  | P = Tableau ,? and? Q = Tableau -> unrsk
Command = unrsk Tableau -? Tableau -> unrsk
  | unrsk PAndQ
  | rect Shape -|: Tableau -> shaped rect -
  | rect ( Lams , Tableau ) -> shaped rect -
  | tab|lrtab Shape -> shaped tab ""
  | tab Shape -from Tableau -> shaped tab -from
LrTableaux = LrName skew? Tableaux -> ""
  | yamanouchi Tableaux -> ""
  | reverse? lattice word? Tableaux -> ""
Tableaux = tableaux|tableau|fillings -> ""
Question = all? LrTableaux OfShape? Skew -> shaped tab ""
  | all? LrTableaux OfShape? Skew , after Tableau -> shaped tab -from
  | all? LrTableaux OfShape? Skew OfContent Arg -> ! shaped tab "" 4
  | Count LrTableaux OfShape? Skew -> tabNumber
  | Count LrTableaux OfShape? Skew OfContent Arg -> tabContent
Command = expand Opt? Basis ␣Sum Opt? -> expandWith  # (expand s2 has no basis)
  | expand Basis ␣Plethysm -> plethysm 2 3
  | expand ( Opt? Basis , Sum ) -> expandWith
  | plethysm Basis ␣Operands|Plethysm -> plethysm
  | plethysm ( Basis , Arguments ) -> plethysm
  | plethysm ( Arguments ) -> ! plethysm s
  | plethysm Operands -> ! plethysm s
  | work ( NUM , NUM ) -> reading work
Operands = Sum ␣Sum -> composed
Arguments = Sum , Sum -> composed
  | OfLam , OfLam -> composed
Question = Square -> ? bareList  # which operation?
  | Round|Blanks -> ? bareList
  | totals of NUM generated commands|command , from seed NUM -> reading work
  | answers to lines of input , of which there are none here -> reading batch
LrCalc = lrcalc Command -> lrcalc  # lrcalc mult -r2 2 1 - 2 1
  | lrcalc . Command -> lrcalc
  | lrcalc mult - ~q QBox Factors -> productIn 6 5
  | lrcalc mult - ~f NUM , NUM Factors -> fusionOf 8 5 7
  | lrcalc coprod - ~a One -> coproduct
  | lrcalc . mult_quantum ( Call2 , QBox ) -> classesIn
  | lrcalc . mult_fusion ( Call2 , NUM , NUM ) -> fusionFor
Typed = Square -> typedWith index
QBox = Box -> space quantum
Boxes = BoxOrN -> space quantum
Call2 = Typed , Typed -> list
Question = OfConjugate -> ! expand s  # the Schur function of the conjugate
OfConjugate = Conjugate -> atom s
Conjugate = conjugate|transpose of? Arg -> conjugate
  | partition ( Square ) . conjugate ( ) -> conjugate
  | List ~Prime -> conjugate

Line = LrCalc|Command|Asked
  | Line , on one line -> onOneLine
RuleOf = pieri|newton rule|formula|identity|identities? of|for|:? -> ""
  | decomposition of -> ""
  | LrRule|Monk -> ""
LrRule = LrName product|rule|expansion|decomposition of|for|:? -> ""
Asked = Question
  | Ask Asked
  | RuleOf Asked -> ofRule
  | murnaghan -? nakayama? rule? for|of? Asked -> ? 6  # of characters, and of p_r s_λ
  | dual pieri rule|formula? of|for|:? Asked -> ? 5  # of e_r s_λ, and of skew functions
Ask = compute|calculate|evaluate|find|determine|decompose|draw|show|list|give|apply|do|class -> ""
  | what is|are? -> ""
  | LrName ~: -> ""
  | murnaghan -? nakayama? rule? : -> ""
  | how do|can I|we -> ""
  | product ~: -> ""
`;

/** The kinds of pieces of a text, each in a group of its own, the first that fits. */
const PIECES = [
  "[ \\t\\u00a0\\u1680\\u2000-\\u200a\\u202f\\u205f\\u3000~]+|\\\\[,;:! ]",
  "\\d+",
  "\\\\(?:mathfrak|frak|mathcal|mathscr|mathbf|mathrm|mathbb|operatorname|text|textrm)\\s?\\{[A-Za-z ]+\\}|\\\\(?:math(?:frak|bb|cal)|frak)\\s?[A-Z]",
  "[A-Za-zü]+(?:_[A-Za-z]{2,})*",
  "-(?:from|[rm])(?![A-Za-z])(?=[ \\t\\d]|$)",
  "[⁰¹²³⁴-⁹]+",
  "[₀-₉]+",
  "\\\\(?:begin|end)\\{(?:ytableau|[vp]matrix)\\}|\\\\\\\\|\\\\[A-Za-z]+|\\*\\*|[-=]>|(?<=[A-Za-z])'s(?![A-Za-z_({[\\d])|.",
];
const PIECE = new RegExp(PIECES.map((it) => `(${it})`).join("|"), "gsu");

/** Letters that stand for a list, a permutation or a tableau, and for a number, if their value is given; and the signs of a value. */
const LIST_LETTERS = /^[λμνρκαβγuvwabPQTU]$/u;
const NUMBER_LETTERS = /^[knNd]$/;
const OF_VALUES = ["NUM", "(", ")", "[", "]", "{", "}", ",", ".", "/", "∖", "^", "∅"];

/** What is no part of a line and is left out, in words. */
const LEFT_OUT = [
  ["characters that are not seen", ALL_UNSEEN],
  ["the prompt", /^\s*(?:\$|sage:|>>>|In \[\d+\]:|i\d+ :)(?=[ \t])/],
  ["the comment", COMMENT],
  ["the declaration", /^\s*(?:(?:import [\w.]+(?: as \w+)?|from [\w.]+ import [\w*]+|Sym *= *SymmetricFunctions\([A-Z]+\)|(?:Sym|SymmetricFunctions\([A-Z]+\))\.inject_shorthands\(\)|X *= *SchubertPolynomialRing\([A-Z]+\)|([mehps]) *= *(?:SymmetricFunctions\([A-Z]+\)|Sym)\.(?:\1|(?=\1)(?:schur|homogeneous|elementary|power|monomial))\(\)) *; *)+/],
  ["the name of the program", /^\s*(?:\S{0,200}\/)?calc(?:-static|-glibc)?(?=[ \t]|$)/],
  ["the quotes", /^\s*(?:"([^"]*)"|'([^']*)'|“([^“”]*)”)\s*$/],
  ["the quotes", /(?<=^|[ \t])["'“]((?! )[^"'“”]*[^"'“” ])["'”](?=[ \t]|$)/g],
  ["the signs around a formula", /^\s*(?:\$\$?([^$]*)\$\$?|\\\(([^\\]*(?:\\[^)][^\\]*)*)\\\)|\\\[([^\\]*(?:\\[^\]][^\\]*)*)\\\])\s*$/],
  ["the sign at the end", /(?:=(?:[ \t]*\?)?|[?;]|(?<=[\])}\w])\.)$/],
];
/** A word in quotes beside a sign, or numbers in quotes: these belong together in a way that is lost without the quotes. */
const QUOTED_APART = /["'’”] ?["'‘“] ?[-+*/]|[-+*/] ?["'’”] ["'‘“]/;
