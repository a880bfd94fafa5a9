-- | stmdesk from Haskell: blocks as typed values, which a desk of stmdesk runs, which "Stmdesk.Explore" runs in every order, and which
-- GHC's own STM runs, too.
--
-- > import Stmdesk
-- > import qualified Stmdesk.Refusal as Refusal
--
-- A variable is a value, 'variable'; a desk learns of it by 'declareVar'. Many names are those of "Control.Concurrent.STM", and mean the
-- same here, so import that one qualified. docs/HASKELL.md is the way from STM to stmdesk and back.
--
-- >>> :{
-- let slot = variable "slot" 0
--     take' = do { j <- readVar slot; check' (j /=. 0); writeVar slot 0; pure j }
-- in withDesk defaults $ \desk -> do
--      _ <- declareVar desk slot
--      waiting <- submit desk take'
--      atomically desk (writeVar slot 7)
--      _ <- eval desk
--      finish desk waiting
-- :}
-- Finished 7 []
module Stmdesk
  ( -- * Variables and expressions
    variable, Exp, Var (..), Typed, Ref (..), Declaration, declaration, true, false, (==.), (/=.), (<.), (<=.), (>.), (>=.), (&&.), (||.)
  , not'
    -- * Blocks
  , Block, Result (Returned), readVar, writeVar, newVar, modifyVar, let', retry, throwInt, orElse, catchInt, if', when', unless', check'
    -- * Texts
  , render, Limit (..)
    -- * Desks
  , Desk, Options (..), Sync (..), defaults, withDesk, findProgram, declareVar, declareVars, declareNow, atomically, atomicallyWithin
  , tryBlock, looks, submit, eval, finish, atomicallyNow, cancel, ready, standings, readsOf, why, board, store, settle, drain, checkpoint, history
    -- * Answers
  , Value (..), Ticket, ticketNumber, Verdict (..), Finished (..), Ran (..), Standing (..), Reason (..), Cell (..), Settled (..)
    -- * What is thrown
  , Refused (..), DeskError (..), Fault (..)
    -- * On GHC
  , toSTM, Vars, newVars, OnGHC
  ) where

import Stmdesk.Answer
import Stmdesk.Desk
import Stmdesk.GHC
import Stmdesk.Language hiding (New)
import Stmdesk.Program (findProgram)
import Stmdesk.Text
