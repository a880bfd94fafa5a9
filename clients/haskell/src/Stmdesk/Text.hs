{-# LANGUAGE GADTs #-}

-- | Blocks and declarations as the texts that stmdesk reads, held against the limits of docs/LANGUAGE.md before anything is sent.
module Stmdesk.Text (render, rendered, renderDeclaration, Declaring (..), Limit (..)) where

import Control.Exception (Exception (..))
import Control.Monad (unless, when)
import Control.Monad.Trans.Class (lift)
import Control.Monad.Trans.State.Strict (StateT, gets, modify', runStateT)
import Data.Char (isAsciiLower, isAsciiUpper, isDigit)
import qualified Data.IntMap.Strict as IntMap
import Data.IntSet (IntSet)
import qualified Data.IntSet as IntSet
import Data.Map.Strict (Map)
import qualified Data.Map.Strict as Map
import Data.Maybe (isJust)
import Stmdesk.Language

-- | Why a text would be none of stmdesk's. Then nothing is sent.
data Limit
  = -- | More than 64 of @do@, @if@, @orElse@, @catch@ and @(@ would be open at once.
    TooDeep
  | -- | The block would have more than 4,096 tokens, or the line more than 65,536 bytes.
    TooLarge
  | -- | A variable would hold a type with more than 8 @TVar@.
    TypeTooDeep
  | -- | A number isn't in the range of 'Int'.
    NumberOutOfRange Integer
  | -- | The name of a variable isn't a small letter and then at most 31 letters, digits, @_@ and @'@, or it is a word of the language.
    BadName String
  | -- | Two variables of this name differ in their type or in their first value.
    TwoOfName String
  | -- | The first value of this variable is neither a literal nor a variable.
    NoLiteral String
  | -- | A block, or a first value, names this variable, which isn't among those that are given, or only after it.
    Undeclared String
  deriving (Eq, Show)

instance Exception Limit where
  displayException it = case it of
    TooDeep -> "the block is too deep: at most 64 of do, if, orElse, catch and brackets can be open at once"
    TooLarge -> "the block is too large: it may have 4,096 tokens, and its line 65,536 bytes"
    TypeTooDeep -> "a variable holds a type with at most 8 TVar"
    NumberOutOfRange n -> show n ++ " isn't in the range of Int"
    BadName name -> show name ++ " can't be the name of a variable"
    TwoOfName name -> "there are two variables of the name " ++ name
    NoLiteral name -> "the first value of " ++ name ++ " is neither a literal nor a variable"
    Undeclared name -> "the variable " ++ name ++ " isn't declared"

-- | The text of a block. It has no name twice, so no local hides anything. What follows a part that never returns is left out, since
-- it never runs.
--
-- >>> render (do { a <- readVar (variable "a" 0); _ <- retry; pure a } :: Block (Exp Int))
-- Right "do { readTVar a; retry }"
-- >>> render (foldr (\c rest -> if' c (pure ()) rest) retry (replicate 65 true))
-- Left TooDeep
render :: Result r => Block r -> Either Limit String
render = fmap fst . rendered

-- | The text of a block, and the variables that it names.
rendered :: Result r => Block r -> Either Limit (String, Map String Declaration)
rendered block = do
  (whole, end) <- runStateT (branch (toExp <$> block)) (Building 0 0 Map.empty)
  let pieces = action 0 (builtAction whole) []
      written = layout (localNames (namedVariables end) pieces) pieces
  when (sum (map tokensOf pieces) > mostTokens || length written > mostBytes) (Left TooLarge)
  when (maximum (map depthOf pieces) > mostDepth) (Left TooDeep)
  pure (written, namedVariables end)

-- | How a variable is declared.
data Declaring = Declaring
  { declaringText :: String
  , declaredName :: String
  , declaredType :: String
  , refersTo :: Maybe String  -- ^ The variable that its first value is, if it is one.
  }
  deriving (Eq, Show)

-- | The declaration of a variable.
--
-- >>> declaringText <$> renderDeclaration (variable "least" (-5))
-- Right "least : Int = (-5)"
renderDeclaration :: Exp (Var a) -> Either Limit Declaring
renderDeclaration (Declared it@(Named name kind first)) = do
  checkVariable it
  written <- literal name first
  let other = case first of
        Declared (Named to _ _) -> Just to
        _ -> Nothing
  pure (Declaring (name ++ " : " ++ typeText kind ++ " = " ++ written) name (typeText kind) other)
renderDeclaration _ = error "a local left its block"

-- | The text of a first value.
literal :: String -> Exp a -> Either Limit String
literal name first = case first of
  Number n | n < 0 -> ("(" ++ show n ++ ")") <$ checkNumber n
  Number n -> show n <$ checkNumber n
  Truth b -> pure (show b)
  Unit -> pure "()"
  Declared (Named other _ _) -> pure other
  _ -> Left (NoLiteral name)

checkNumber :: Integer -> Either Limit ()
checkNumber n =
  when (n < toInteger (minBound :: Int) || n > toInteger (maxBound :: Int)) (Left (NumberOutOfRange n))

checkVariable :: Declared a -> Either Limit ()
checkVariable (Named name kind first) = do
  unless (isName name) (Left (BadName name))
  when (depthOfType kind > mostVars) (Left TypeTooDeep)
  () <$ literal name first

isName :: String -> Bool
isName name = case name of
  begin : rest -> isAsciiLower begin && all isInName rest && length name <= 32 && name `notElem` reserved
  [] -> False
  where
    isInName c = isAsciiLower c || isAsciiUpper c || isDigit c || c == '_' || c == '\''
    reserved = words "do let if then else return readTVar writeTVar newTVar retry orElse throw catch"

mostDepth, mostTokens, mostBytes, mostVars :: Int
mostDepth = 64
mostTokens = 4096
mostBytes = 65536
mostVars = 8

-- What a block is built to: trees without functions, in which a local is a number.

data Term
  = Word [String]  -- its pieces
  | Name Int
  | Infix Int String Term Term  -- with how tightly it binds

data Act
  = Say String [Term]
  | Do [Stmt] Act
  | Choose Term Act Act
  | Alternatives [Act]
  | Handle Act Int Act

data Stmt = Bind Int Act | LetBe Int Term | Plain Act

data Built = Built
  { builtAction :: Act
  , neverReturns :: Bool
  , usedLocals :: IntSet
  }

data Building = Building
  { locals :: !Int
  , spent :: !Int  -- at most as many tokens as the text will have; so a block without an end has one here
  , namedVariables :: !(Map String Declaration)
  }

type Build = StateT Building (Either Limit)

spend :: Int -> Build ()
spend count = do
  modify' (\it -> it {spent = spent it + count})
  total <- gets spent
  when (total > mostTokens) (lift (Left TooLarge))

newLocal :: Build Int
newLocal = do
  number <- gets locals
  modify' (\it -> it {locals = number + 1})
  pure number

-- | A block as one action.
branch :: Block (Exp a) -> Build Built
branch block = do
  (stmts, end) <- statements block
  pure end {builtAction = if null stmts then builtAction end else Do stmts (builtAction end)}

-- | The statements of a block, and its last action, with the locals that all of these use.
statements :: Block (Exp a) -> Build ([Stmt], Built)
statements block = case block of
  Pure e -> spend (-1) >> ended "return" False e  -- it may be left out
  Retry -> spend 1 >> pure ([], Built (Say "retry" []) True IntSet.empty)
  Throw e -> spend 1 >> ended "throw" True e
  Then (Let e) next -> do
    spend 1
    local <- newLocal
    (value, used) <- term e
    (stmts, end) <- statements (next (Local local))
    pure $ case (stmts, builtAction end) of
      ([], Say "return" [Name it]) | it == local -> ([], Built (Say "return" [value]) False used)
      _ -> (LetBe local value : stmts, end {usedLocals = used <> usedLocals end})
  Then step next -> do
    local <- newLocal
    first <- built step
    let act = builtAction first
        used = usedLocals first
    if neverReturns first
      then pure ([], first)
      else do
        (stmts, end) <- statements (next (Local local))
        let isLast = null stmts && case builtAction end of
              Say "return" [Name it] -> it == local
              Say "return" [Word ["(", ")"]] -> isOfUnit step
              _ -> False
            stmt = if local `IntSet.member` usedLocals end then Bind local act else Plain act
        pure $
          if isLast
            then ([], first)
            else (stmt : stmts, end {usedLocals = used <> usedLocals end})
  where
    ended word never e = do
      (value, used) <- term e
      pure ([], Built (Say word [value]) never used)

isOfUnit :: Action a -> Bool
isOfUnit step = case step of
  Write _ _ -> True
  If UnitType _ _ _ -> True
  OrElse UnitType _ _ -> True
  Catch UnitType _ _ -> True
  _ -> False

-- | An action other than @let@.
built :: Action a -> Build Built
built step = case step of
  Read v -> spend 1 >> said "readTVar" <$> term v
  Write v e -> do
    spend 1
    (to, used) <- term v
    (value, used') <- term e
    pure (Built (Say "writeTVar" [to, value]) False (used <> used'))
  New kind e -> do
    when (depthOfType kind > mostVars) (lift (Left TypeTooDeep))
    spend 1 >> said "newTVar" <$> term e
  If _ c a b -> do
    spend 3
    (condition, used) <- term c
    both (Choose condition) used <$> branch a <*> branch b
  OrElse _ a b -> do
    spend 5
    let alternatives it = case it of
          Alternatives some -> some
          one -> [one]
    both (\l r -> Alternatives (alternatives l ++ alternatives r)) IntSet.empty <$> branch a <*> branch b
  Catch _ a handler -> do
    spend 6
    local <- newLocal
    first <- branch a
    second <- branch (handler (Local local))
    pure (both (\l r -> Handle l local r) IntSet.empty first second)
  Let _ -> error "a let is a statement"
  where
    said word (value, used) = Built (Say word [value]) False used
    both make used a b =
      Built
        (make (builtAction a) (builtAction b))
        (neverReturns a && neverReturns b)
        (used <> usedLocals a <> usedLocals b)

-- | An expression, and the locals that it uses.
term :: Exp a -> Build (Term, IntSet)
term e = spend 1 >> case e of
  Number n -> do
    lift (checkNumber n)
    pure (Word (if n < 0 then ["(", show n, ")"] else [show n]), IntSet.empty)
  Truth b -> pure (Word [show b], IntSet.empty)
  Unit -> pure (Word ["(", ")"], IntSet.empty)
  Declared it@(Named name _ _) -> note it >> pure (Word [name], IntSet.empty)
  Local it -> pure (Name it, IntSet.singleton it)
  Given _ -> error "a value of GHC left its block"
  Arithmetic Plus a b -> operator 4 "+" a b
  Arithmetic Minus a b -> operator 4 "-" a b
  Arithmetic Times a b -> operator 5 "*" a b
  Compare Less a b -> operator 3 "<" a b
  Compare AtMost a b -> operator 3 "<=" a b
  Equal _ a b -> operator 3 "==" a b
  And a b -> operator 2 "&&" a b
  Or a b -> operator 1 "||" a b
  where
    operator level word a b = do
      (left, used) <- term a
      (right, used') <- term b
      pure (Infix level word left right, used <> used')

-- | Keeps a variable that the block names.
note :: Declared a -> Build ()
note it@(Named name kind first) = do
  known <- gets (Map.lookup name . namedVariables)
  case known of
    Nothing -> do
      lift (checkVariable it)
      modify' (\now -> now {namedVariables = Map.insert name (Declaration (Declared it)) (namedVariables now)})
    Just (Declaration (Declared (Named _ kind' first')))
      | isJust (sameType kind kind') && literal name first == literal name first' -> pure ()
    Just _ -> lift (Left (TwoOfName name))

-- Pieces of a text.

-- | A token, or a number with its sign: its depth, and what it is, a local or a text.
data Piece = Piece {depthOf :: Int, _what :: Either Int String}

tokensOf :: Piece -> Int
tokensOf (Piece _ (Right ('-' : _ : _))) = 2
tokensOf _ = 1

-- | The pieces of an action before others, at a depth.
action :: Int -> Act -> [Piece] -> [Piece]
action depth act = case act of
  Say word values -> text depth word . chain (map (operand depth 6) values)
  Do stmts end ->
    text inner "do" . text inner "{"
      . chain [statement inner it . text inner ";" | it <- stmts]
      . action inner end . text inner "}"
  Choose c a b ->
    text inner "if" . operand inner 1 c . text inner "then" . action inner a . text inner "else" . action inner b
  Alternatives [one] -> action depth one
  Alternatives some ->
    let (left, right) = splitAt (length some `div` 2) some
     in text inner "orElse" . bracketed (Alternatives left) . bracketed (Alternatives right)
  Handle a local handler ->
    text inner "catch" . bracketed a . (Piece inner (Left local) :) . bracketed handler
  where
    inner = depth + 1
    bracketed it = text (inner + 1) "(" . action (inner + 1) it . text (inner + 1) ")"

statement :: Int -> Stmt -> [Piece] -> [Piece]
statement depth it = case it of
  Bind local act -> (Piece depth (Left local) :) . text depth "<-" . action depth act
  LetBe local value -> text depth "let" . (Piece depth (Left local) :) . text depth "=" . operand depth 1 value
  Plain act -> action depth act

-- | The pieces of an expression in a place that takes those that bind at least this tightly without brackets.
operand :: Int -> Int -> Term -> [Piece] -> [Piece]
operand depth least it = case it of
  Name local -> (Piece depth (Left local) :)
  Word [one] -> text depth one
  Word pieces -> chain (map (text (depth + 1)) pieces)
  Infix level word a b
    | level < least -> text (depth + 1) "(" . operand (depth + 1) 1 it . text (depth + 1) ")"
    | otherwise -> operand depth left a . text depth word . operand depth right b
    where
      (left, right)
        | level <= 2 = (level + 1, level)
        | level == 3 = (4, 4)
        | otherwise = (level, level + 1)

text :: Int -> String -> [Piece] -> [Piece]
text depth it = (Piece depth (Right it) :)

chain :: [[Piece] -> [Piece]] -> [Piece] -> [Piece]
chain = foldr (.) id

-- | A name for each local that occurs, in the order of the text, none of them that of a variable.
localNames :: Map String Declaration -> [Piece] -> IntMap.IntMap String
localNames variables pieces = fst (foldl next (IntMap.empty, free) [it | Piece _ (Left it) <- pieces])
  where
    next (known, names) it
      | name : rest <- names, not (IntMap.member it known) = (IntMap.insert it name known, rest)
      | otherwise = (known, names)
    free = filter (not . (`Map.member` variables)) (letters ++ [it ++ show n | n <- [1 :: Int ..], it <- letters])
    letters = map pure ['a' .. 'z']

layout :: IntMap.IntMap String -> [Piece] -> String
layout names pieces = case map word pieces of
  [] -> ""
  first : rest -> first ++ concat (zipWith after (first : rest) rest)
  where
    word (Piece _ it) = either (names IntMap.!) id it
    after before it
      | before == "(" || it == ")" || it == ";" = it
      | otherwise = ' ' : it
