-- | Calls a second of the increment, by the clock, the best of five: by @try@; by @submit@, @eval@ and @finish@; by 'atomically' in one
-- thread, and in four and sixteen at once. Last the same increments on GHC's STM, by 'toSTM'.
module Main (main) where

import Control.Concurrent (forkIO, newEmptyMVar, putMVar, takeMVar)
import Control.Monad (forM_, replicateM, replicateM_, void)
import qualified Control.Concurrent.STM as STM
import GHC.Clock (getMonotonicTime)
import Stmdesk
import Text.Printf (printf)

x :: Exp (Var Int)
x = variable "x" 0

increment :: Block (Exp Int)
increment = do
  now <- readVar x
  writeVar x (now + 1)
  pure now

main :: IO ()
main = do
  onDesk "try" 20000 (\desk count -> replicateM_ count (tryBlock desk increment))
  onDesk "submit, eval and finish" 10000 $ \desk count -> replicateM_ count $ do
    ticket <- submit desk increment
    _ <- eval desk
    finish desk ticket
  forM_ [1, 4, 16] $ \threads ->
    onDesk ("atomically in " ++ show threads ++ " threads") 16000 $ \desk count -> do
      ends <- replicateM threads newEmptyMVar
      forM_ ends (\end -> forkIO (replicateM_ (count `div` threads) (atomically desk increment) >> putMVar end ()))
      mapM_ takeMVar ends
  vars <- newVars [declaration x]
  best "on GHC's STM" 200000 (\count -> replicateM_ count (STM.atomically (toSTM vars increment)))
  where
    onDesk name count act = withDesk defaults $ \desk -> do
      _ <- declareVar desk x
      best name count (\n -> act desk n >> void (checkpoint desk))

best :: String -> Int -> (Int -> IO ()) -> IO ()
best name count act = do
  times <- replicateM 5 $ do
    begin <- getMonotonicTime
    act count
    end <- getMonotonicTime
    pure (end - begin)
  printf "%-28s %9.0f a second\n" name (fromIntegral count / minimum times :: Double)
