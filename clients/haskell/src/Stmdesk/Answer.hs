{-# LANGUAGE DeriveTraversable, GADTs, OverloadedStrings #-}

-- | What stmdesk prints (docs/CONSOLE.md), as values; and what goes wrong.
module Stmdesk.Answer
  ( -- * Values
    Value (..), Ticket (..), Verdict (..), Finished (..), Ran (..), Standing (..), Reason (..), Cell (..), Settled (..)
    -- * What goes wrong
  , Refused (..), DeskError (..)
    -- * Reading: 'Nothing' if stmdesk never prints such a text
  , Names, Words, valueOf, fromValue, refOf, assignments, verdict, finished, ran, standing, reason, cells, settled, numberAfter, tickets
  , refusal, decimal
  ) where

import Control.Exception (Exception (..))
import Control.Monad (guard)
import Data.ByteString.Char8 (ByteString)
import qualified Data.ByteString.Char8 as Bytes
import Data.Int (Int64)
import Data.IntMap.Strict (IntMap)
import qualified Data.IntMap.Strict as IntMap
import Stmdesk.GHC (Fault (..))
import Stmdesk.Language (Ref (..), Type (..), Var (..))
import Stmdesk.Refusal (Refusal, refusalOf)
import System.Exit (ExitCode)

-- | A value of a type that isn't known.
data Value = IntValue Int | BoolValue Bool | UnitValue | RefValue Ref
  deriving (Eq, Ord, Show)

-- | The number under which a block waits, and of which type its result will be. One that came from the program has 'Value's. It is for the
-- desk that gave it: another desk takes it for its own ticket of this number.
data Ticket a = Ticket
  { ticketNumber :: Int  -- ^ Its number.
  , readResult :: Value -> Maybe a  -- ^ The result as one of its type.
  }

instance Show (Ticket a) where
  showsPrec depth it = showParen (depth > 10) (showString "ticket " . shows (ticketNumber it))

-- | What a block does on a store: it commits, with the variables written, the values of those that it makes, and its result; it throws;
-- or it blocks.
data Verdict a
  = Commits {writesOf :: [(Ref, Value)], newsOf :: [Value], resultOf :: a}
  | Throws Fault
  | Blocks
  deriving (Eq, Show, Functor, Foldable, Traversable)

-- | What a finish did: the block's result, and the tickets that this made stale; or what the block threw, which changed nothing.
data Finished a = Finished a [Ticket Value] | FinishedThrows Fault
  deriving (Show, Functor, Foldable, Traversable)

-- | What a transaction at once did: the block blocks, and waits under this ticket; or it has finished, under this one.
data Ran a = Waiting (Ticket a) | Ran (Ticket a) (Finished a)
  deriving (Show)

-- | How a waiting block stands: never evaluated; evaluated, with a verdict that is out of date; or with one that counts.
data Standing = New | Stale (Verdict Value) | Current (Verdict Value)
  deriving (Eq, Show)

-- | What a waiting block waits for.
data Reason
  = -- | An evaluation, the first.
    WaitsForEvaluation
  | -- | Another evaluation, since the finish of this ticket changed these variables: what the block had read, and what was left.
    StaleBy (Ticket Value) [(Ref, Value, Value)]
  | -- | Another evaluation; a checkpoint of version 0.17 or earlier doesn't say which finish made it stale.
    StaleBefore
  | -- | A change of what it read.
    WaitsForChange [(Ref, Value)]
  | -- | Its finish.
    IsReady
  deriving (Show)

-- | A variable of the store: its type, its value, and how often a finished block changed it.
data Cell = Cell {variableOf :: Ref, kindOf :: String, valueNow :: Value, changes :: Int}
  deriving (Eq, Show)

-- | How many tickets 'Stmdesk.settle' or 'Stmdesk.drain' finished and how many evaluations that took; and why it stopped, if it had to.
data Settled = Settled {finishedTickets :: Int, evaluations :: Int, stopped :: Maybe Refusal}
  deriving (Eq, Show)

-- | The program refused a command, which changed nothing but what docs/CONSOLE.md says.
data Refused = Refused
  { refused :: Refusal
  , refusedAt :: Maybe Int  -- ^ The byte of the command's argument that is the cause, counted from 0.
  , overtaken :: Maybe Ref  -- ^ The variable that an @Overtaken@ names.
  , refusedLine :: String  -- ^ The line that was sent.
  }
  deriving (Eq, Show)

instance Exception Refused where
  displayException it =
    concat ["stmdesk refused ", show (refused it), maybe "" ((' ' :) . show) (refusedAt it), ": ", take 200 (refusedLine it)]

-- | The desk can't do what it is asked.
data DeskError
  = -- | No program was found: where it was looked for.
    NoProgram String
  | -- | The program has ended, with this status and the end of what it wrote on standard error.
    Ended ExitCode String
  | -- | The program printed what stmdesk never prints: the line that was sent, and what came.
    BadAnswer String String
  | -- | The program refuses a line of the script of an exploration: its number, from 1, and its text.
    ScriptRefused Int String
  | -- | The desk's 'Stmdesk.withDesk' has ended.
    Closed
  | -- | Another call has cancelled the block of this 'Stmdesk.atomically'.
    Cancelled
  | -- | 'Stmdesk.settle' and 'Stmdesk.drain' don't say with what result a block finishes, for which an 'Stmdesk.atomically' waits.
    Awaited
  deriving (Eq, Show)

instance Exception DeskError where
  displayException it = case it of
    NoProgram places -> "no program to run: " ++ places
    Ended status said -> "stmdesk ended (" ++ show status ++ ")" ++ if null said then "" else ": " ++ said
    BadAnswer sent answer -> show (take 80 sent) ++ " was answered " ++ show (take 200 answer)
    ScriptRefused number line -> "line " ++ show number ++ " of the script is refused: " ++ take 200 line
    Closed -> "the desk is closed"
    Cancelled -> "the block was cancelled"
    Awaited -> "a block of atomically waits, and this would finish it without its result"

-- | The names of the declared variables by their numbers.
type Names = IntMap String

-- | The words of a line.
type Words = [ByteString]

-- | A number of 64 bits.
decimal :: ByteString -> Maybe Int
decimal it = do
  let (sign, digits) = maybe (1, it) ((,) (-1)) (Bytes.stripPrefix "-" it)
  guard (not (Bytes.null digits) && Bytes.length digits <= 19 && Bytes.all (\c -> c >= '0' && c <= '9') digits)
  n <- fst <$> Bytes.readInteger digits
  guard (sign * n >= toInteger (minBound :: Int64) && sign * n <= toInteger (maxBound :: Int64))
  pure (fromInteger (sign * n))

-- | @7@, @True@, @()@, @#0@ or @new0@
valueOf :: Names -> ByteString -> Maybe Value
valueOf names it = case it of
  "True" -> Just (BoolValue True)
  "False" -> Just (BoolValue False)
  "()" -> Just UnitValue
  _ | Just number <- Bytes.stripPrefix "new" it -> RefValue . NewRef <$> decimal number
  _ | "#" `Bytes.isPrefixOf` it -> RefValue <$> refOf names it
  _ -> IntValue <$> decimal it

-- | A value as one of a type.
fromValue :: Type a -> Value -> Maybe a
fromValue IntType (IntValue n) = Just n
fromValue BoolType (BoolValue b) = Just b
fromValue UnitType UnitValue = Just ()
fromValue (VarType _) (RefValue it) = Just (Var it)
fromValue _ _ = Nothing

-- | @#0@
refOf :: Names -> ByteString -> Maybe Ref
refOf names it = do
  number <- Bytes.stripPrefix "#" it >>= decimal
  pure (Ref number (IntMap.lookup number names))

-- | @#0=1 #2=True@, or @none@
assignments :: Names -> Words -> Maybe [(Ref, Value)]
assignments _ ["none"] = Just []
assignments names them = mapM one them
  where
    one it = case Bytes.split '=' it of
      [variable', value] -> (,) <$> refOf names variable' <*> valueOf names value
      _ -> Nothing

-- | @commits writes #0=2 news none result 1@, @throws 4@ or @blocks@
verdict :: Names -> Words -> Maybe (Verdict Value)
verdict names them = case them of
  ["blocks"] -> Just Blocks
  ["throws", it] -> Throws <$> fault it
  "commits" : "writes" : rest
    | (writes, "news" : rest') <- break (== "news") rest
    , (news, ["result", it]) <- break (== "result") rest' ->
        Commits <$> assignments names writes <*> values news <*> valueOf names it
  _ -> Nothing
  where
    values ["none"] = Just []
    values some = mapM (valueOf names) some

-- | @4@ or @overflow@
fault :: ByteString -> Maybe Fault
fault "overflow" = Just Overflowed
fault it = Thrown <$> decimal it

-- | @finished 3 result () stale 1 2@ or @finished 3 throws 4@
finished :: Names -> Words -> Maybe (Finished Value)
finished names them = case them of
  ["finished", _, "throws", it] -> FinishedThrows <$> fault it
  "finished" : _ : "result" : it : "stale" : stale -> Finished <$> valueOf names it <*> tickets stale
  _ -> Nothing

-- | @waits 3@, or what a finish prints; with what reads the result
ran :: (Value -> Maybe a) -> Names -> Words -> Maybe (Ran a)
ran reading names them = case them of
  ["waits", it] -> Waiting . (`Ticket` reading) <$> decimal it
  "finished" : it : _ -> Ran . (`Ticket` reading) <$> decimal it <*> (finished names them >>= traverse reading)
  _ -> Nothing

-- | @1 3@, or @none@
tickets :: Words -> Maybe [Ticket Value]
tickets ["none"] = Just []
tickets them = map (`Ticket` Just) <$> mapM decimal them

-- | A line of @show@: @1 new@, @1 stale VERDICT@ or @1 current VERDICT@
standing :: Names -> Words -> Maybe (Ticket Value, Standing)
standing names them = case them of
  [it, "new"] -> with it (Just New)
  it : "stale" : rest -> with it (Stale <$> verdict names rest)
  it : "current" : rest -> with it (Current <$> verdict names rest)
  _ -> Nothing
  where
    with it how = (,) . (`Ticket` Just) <$> decimal it <*> how

-- | @why 1 new@, @why 1 stale 3 #0=1->5@, @why 1 stale checkpoint@, @why 1 waits #0=1@ or @why 1 ready@
reason :: Names -> Words -> Maybe Reason
reason names them = case them of
  ["why", _, "new"] -> Just WaitsForEvaluation
  ["why", _, "ready"] -> Just IsReady
  "why" : _ : "waits" : rest -> WaitsForChange <$> assignments names rest
  ["why", _, "stale", "checkpoint"] -> Just StaleBefore
  "why" : _ : "stale" : it : rest -> StaleBy . (`Ticket` Just) <$> decimal it <*> mapM change rest
  _ -> Nothing
  where
    change it = case Bytes.split '=' it of
      [variable', both]
        | (before, after) <- Bytes.breakSubstring "->" both
        , Just now <- Bytes.stripPrefix "->" after ->
            (,,) <$> refOf names variable' <*> valueOf names before <*> valueOf names now
      _ -> Nothing

-- | The lines of @store@, and of a store of @explore@, which has no counts: @#0 x : Int = 1 count 0@
cells :: Names -> [Words] -> Maybe [Cell]
cells names = mapM cell
  where
    cell (it : rest)
      | (name, ":" : rest') <- break (== ":") rest
      , (kind, "=" : value : counted) <- break (== "=") rest' = do
          number <- Bytes.stripPrefix "#" it >>= decimal
          named <- case name of
            [] -> Just Nothing
            [one] -> Just (Just (Bytes.unpack one))
            _ -> Nothing
          count <- case counted of
            [] -> Just 0
            ["count", n] -> decimal n
            _ -> Nothing
          Cell (Ref number named) (Bytes.unpack (Bytes.unwords kind)) <$> valueOf names value <*> pure count
    cell _ = Nothing

-- | @settled 1 evaluations 2@, or @drained ..@, or the same after @stopped HistoryFull@
settled :: ByteString -> Words -> Maybe Settled
settled word them = case them of
  "stopped" : it : rest -> (\done -> done {stopped = Just (refusalOf (Bytes.unpack it))}) <$> settled word rest
  [it, count, "evaluations", count'] | it == word -> Settled <$> decimal count <*> decimal count' <*> pure Nothing
  _ -> Nothing

-- | The number after a word, as in @ticket 1@
numberAfter :: ByteString -> Words -> Maybe Int
numberAfter word [it, number] | it == word = decimal number
numberAfter _ _ = Nothing

-- | @refused NAME@, with a place or a variable after it: the refusal of this line.
refusal :: Names -> ByteString -> Words -> Maybe Refused
refusal names line them = case them of
  ["refused", name] -> Just (with name Nothing Nothing)
  ["refused", name, it]
    | Just variable' <- refOf names it -> Just (with name Nothing (Just variable'))
    | Just at <- decimal it -> Just (with name (Just at) Nothing)
  _ -> Nothing
  where
    with name at variable' = Refused (refusalOf (Bytes.unpack name)) at variable' (Bytes.unpack line)
