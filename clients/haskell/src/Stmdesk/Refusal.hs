-- | The names of the program's refusals. Import it qualified: @import qualified Stmdesk.Refusal as Refusal@.
module Stmdesk.Refusal (Refusal (..), refusalOf) where

import Data.Maybe (fromMaybe)
import Text.Read (readMaybe)

-- | A refusal, by the name that docs/CONSOLE.md has for it, with when it comes.
data Refusal
  = Already | Argument | BadByte | BadNumber | Blocks | CellsFull | Command | EndOfText | Gone | HistoryFull | JobsFull | Late | LineTooLong
  | Mismatch | NameTooLong | NoCheckpoint | NoJob | NoTicket | NotAscii | NotAVariable | NotEvaluated | NotOut | Overtaken | Stale | TableFull
  | TicketsFull | TooDeep | TooLarge | Twice | TypeOfValue | TypeTooDeep | Unexpected | Unknown | Untyped | WaitingFull
  | -- | One that this package doesn't know.
    Other String
  deriving (Eq, Ord, Show, Read)

-- | The refusal of a name.
--
-- >>> map refusalOf ["Stale", "NeverHeardOf"]
-- [Stale,Other "NeverHeardOf"]
refusalOf :: String -> Refusal
refusalOf name = fromMaybe (Other name) (readMaybe name)
